//! A board's tables as files: plain words, what the program writes itself, and any spelling that
//! Verilog's `$readmemh` takes.

use crate::binary::Tables;
use crate::fit::names::Names;
use crate::fit::trial::Files;
use crate::random::Random;
use std::fmt::{LowerHex, UpperHex};

/// The two files of a folder, the store's first.
pub const STORE_FILE: &str = "store.hex";
pub const INDICATORS_FILE: &str = "indicators.hex";

/// One word to a line and nothing else.
pub fn plain(folder: &str, tables: &Tables) -> Files {
    fn lines<T: LowerHex>(words: &[T], digits: usize) -> String {
        let lines = words.iter().map(|word| format!("{word:0digits$x}\n"));
        lines.collect()
    }
    let indicators = lines(&tables.indicators, 16);
    files(folder, lines(&tables.store, 8), indicators)
}

/// As the program writes them: a head line, each row under its name, a word to a line.
pub fn named(folder: &str, names: &Names, tables: &Tables) -> Files {
    let line = names.geometry.line();
    let mut store = format!("// camfit store: {line}\n");
    for word in tables.store.iter() {
        store += &format!("{word:08x}\n");
    }
    let mut indicators = format!("// camfit indicators: {line}\n");
    for (i, word) in tables.indicators.iter().enumerate() {
        if let Some(row) = names.row_from(i) {
            indicators += &format!("// {row}\n");
        }
        indicators += &format!("{word:016x}\n");
    }
    files(folder, store, indicators)
}

/// As somebody else may write them.
pub fn spelt(random: &mut Random, folder: &str, tables: &Tables) -> Files {
    let store = spelt_words(random, &tables.store);
    let indicators = spelt_words(random, &tables.indicators);
    files(folder, store, indicators)
}

/// One of the three.
pub fn any(random: &mut Random, folder: &str, names: &Names, tables: &Tables) -> Files {
    match random.below(3) {
        0 => plain(folder, tables),
        1 => named(folder, names, tables),
        _ => spelt(random, folder, tables),
    }
}

fn files(folder: &str, store: String, indicators: String) -> Files {
    let files = [(STORE_FILE, store), (INDICATORS_FILE, indicators)];
    let files = files.map(|(name, text)| (format!("{folder}/{name}"), text.into_bytes()));
    Files::from(files)
}

/// Pieces of the table in any order, each after the number of its first word.
fn spelt_words<T: LowerHex + UpperHex>(random: &mut Random, words: &[T]) -> String {
    let length = random.between(1, words.len() as u32) as usize;
    let mut pieces: Vec<(usize, &[T])> = words.chunks(length).enumerate().collect();
    let turn = random.below(pieces.len() as u32) as usize;
    pieces.rotate_left(turn);
    let mut text = random.pick(&["", "\n", "// words\n"]).to_string();
    for (piece, words) in pieces {
        if turn > 0 || random.one_in(2) {
            text += &format!("@{:x}\n", piece * length);
        }
        for word in words {
            text += &spelt_word(random, word);
            text += random.pick(&["\n", "\n", " ", "\r\n", " // more\n", "/* more\n*/"]);
        }
    }
    text
}

fn spelt_word<T: LowerHex + UpperHex>(random: &mut Random, word: &T) -> String {
    let digits = format!("{word:08X}");
    match random.below(4) {
        0 => format!("{word:x}"),
        1 => format!("{}_{}", &digits[..4], &digits[4..]),
        _ => digits,
    }
}
