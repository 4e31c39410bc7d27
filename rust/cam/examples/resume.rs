//! A memory whose tables are saved to files, loaded again and gone on with; then tables that no
//! history leaves, which are refused.

use cam::{Geometry, Memory, Refusal, SEGMENTED};
use std::error::Error;
use std::fmt::LowerHex;
use std::num::ParseIntError;
use std::path::Path;
use std::{env, fs, io, process};

const GEOMETRY: Geometry = Geometry {
    kind: SEGMENTED,
    depth: 8,
    pattern_width: 2,
    set_width: 2,
};

fn main() -> Result<(), Box<dyn Error>> {
    println!("before the break");
    let mut unbroken = Memory::new(GEOMETRY)?;
    write(&mut unbroken, 2, 1)?;
    write(&mut unbroken, 3, 1)?;

    let folder = env::temp_dir().join(format!("cam_resume_{}", process::id()));
    let (store_file, indicators_file) = (folder.join("a.store"), folder.join("a.indicators"));
    fs::create_dir(&folder)?;
    save(&store_file, unbroken.store())?;
    save(&indicators_file, unbroken.indicators())?;
    let store = load(&store_file, u32::from_str_radix)?;
    let mut indicators = load(&indicators_file, u64::from_str_radix)?;
    fs::remove_dir_all(&folder)?;

    let mut again = Memory::resumed(GEOMETRY, store.clone(), indicators.clone())?;
    println!("resumed");
    go_on(&mut again)?;
    println!("without a break");
    go_on(&mut unbroken)?;
    println!("tables the same: {}", again == unbroken);

    // Addresses 2 and 3 hold pattern 1, and no match would find them once the bit of their set is 0.
    indicators[1] ^= 2;
    let flipped = GEOMETRY.resume(&store, &indicators).unwrap_err();
    println!("a bit flipped: {flipped}");
    let shorter = GEOMETRY.resume(&store, &indicators[..3]).unwrap_err();
    println!("a word missing: {shorter}");
    Ok(())
}

/// The calls after the break.
fn go_on(memory: &mut Memory) -> Result<(), Refusal> {
    write(memory, 3, 2)?;
    first_match(memory, 1)?;
    first_match(memory, 2)?;
    println!("  erase 2: {:?} before", memory.erase(2)?);
    first_match(memory, 1)
}

fn write(memory: &mut Memory, address: u32, pattern: u32) -> Result<(), Refusal> {
    let before = memory.write(address, pattern)?;
    println!("  write {pattern} at {address}: {before:?} before");
    Ok(())
}

fn first_match(memory: &Memory, key: u32) -> Result<(), Refusal> {
    let found = memory.first_match(key)?;
    println!("  first match of {key}: {:?}", found.address);
    Ok(())
}

/// Writes a table as those of tests/jobs are, one word to a line in hexadecimal.
fn save<W: LowerHex>(file: &Path, words: &[W]) -> io::Result<()> {
    let digits = 2 * size_of::<W>();
    let lines: String = words
        .iter()
        .map(|word| format!("{word:0digits$x}\n"))
        .collect();
    fs::write(file, lines)
}

/// Reads it again; `word` makes a word of a line.
fn load<W>(
    file: &Path,
    word: fn(&str, u32) -> Result<W, ParseIntError>,
) -> Result<Vec<W>, Box<dyn Error>> {
    let lines = fs::read_to_string(file)?;
    let words: Result<_, _> = lines.lines().map(|line| word(line, 16)).collect();
    Ok(words?)
}
