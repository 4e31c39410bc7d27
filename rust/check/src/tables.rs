//! The two tables and the match word as a family may lend them, and the bits of the indicators:
//! section 3 of docs/MEMORY.md.

use crate::geometry::{Geometry, CASCADED};
use crate::lent::{Content, Rule};

/// The store's word for an empty address (rule 3.2).
pub const EMPTY: u32 = 4_294_967_295;

pub static STORE: Rule<u32> = Rule {
    name: "store",
    word: "store",
    unit: "entries",
    length: |g| g.depth as usize,
    empty: EMPTY,
    content: Content::Number,
    place: |_, _| String::new(),
};

pub static INDICATORS: Rule<u64> = Rule {
    name: "indicators",
    word: "indicators word",
    unit: "words",
    length: Geometry::indicator_words,
    empty: 0,
    content: Content::Bits,
    place: place_in_matrix,
};

/// An all-match may be lent one that does not fit, and whatever it holds (rule 10.1).
pub static MATCH_WORD: Rule<u64> = Rule {
    name: "match word",
    word: "match word",
    unit: "words",
    length: Geometry::match_words,
    empty: 0,
    content: Content::Bits,
    place: |_, _| String::new(),
};

fn place_in_matrix(g: &Geometry, m: usize) -> String {
    if !g.is_valid() {
        return String::new();
    }
    let (row, j) = (m / g.row_words(), m % g.row_words());
    let padding = match g.sets() {
        sets if 64 * (j + 1) > sets => format!(", bits from {} on are padding", sets - 64 * j),
        _ => String::new(),
    };
    match g.kind {
        CASCADED => format!(
            " (stage {}, value {}, word {j}{padding})",
            row / 512,
            row % 512
        ),
        _ => format!(" (row {row}, word {j}{padding})"),
    }
}

/// The bit of a set in the row that begins at this word (rule 3.5).
fn bit(words: &[u64], row_start: usize, set: usize) -> bool {
    words[row_start + set / 64] >> (set % 64) & 1 == 1
}

pub fn set_bit(words: &mut [u64], row_start: usize, set: usize) {
    if !bit(words, row_start, set) {
        words[row_start + set / 64] += 1 << (set % 64);
    }
}

pub fn clear_bit(words: &mut [u64], row_start: usize, set: usize) {
    if bit(words, row_start, set) {
        words[row_start + set / 64] -= 1 << (set % 64);
    }
}

/// The indicators of a less deep geometry whose sets are the last ones of this, padding bits 0.
pub fn bits_of_last_sets(g: &Geometry, words: &[u64], less: &Geometry) -> Vec<u64> {
    let mut left = vec![0; less.indicator_words()];
    let first = g.sets() - less.sets();
    for row in 0..words.len() / g.row_words() {
        for set in 0..less.sets() {
            if bit(words, g.row_words() * row, first + set) {
                set_bit(&mut left, less.row_words() * row, set);
            }
        }
    }
    left
}

/// The addresses that have their bits in a match word (rule 3.7), ascending.
pub fn marked(match_word: &[u64]) -> Vec<u32> {
    let words = (0..).zip(match_word).filter(|(_, &word)| word != 0);
    let addresses = words.flat_map(|(i, &word)| {
        let ones = (0..64).filter(move |bit| word >> bit & 1 == 1);
        ones.map(move |bit| 64 * i + bit)
    });
    addresses.collect()
}

/// Whether the set has its bit in the row of a pattern, in kind 1 in the row of every stage.
pub fn in_every_row(g: &Geometry, indicators: &[u64], pattern: u32, set: usize) -> bool {
    (0..g.stages()).all(|stage| bit(indicators, g.row_start(pattern, stage), set))
}
