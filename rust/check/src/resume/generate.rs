//! The tables of random resumes, most of them with one thing wrong, and the calls of histories that
//! resumes begin and cut.

use crate::binary::generate::{self, damaged_tables, few_entries, random_call};
use crate::binary::{image, Binary, Tables};
use crate::family::Family;
use crate::geometry::Geometry;
use crate::pool::Pool;
use crate::random::Random;
use crate::resume::Call;
use crate::tables::EMPTY;

/// Half of the histories begin with a resume, the others as those of the seven calls do.
pub fn opening(random: &mut Random, g: &Geometry, pool: &Pool) -> Vec<Call> {
    match random.one_in(2) {
        true => vec![Call::Resume],
        false => {
            let calls = generate::opening(random, g, pool);
            calls.into_iter().map(Call::Seven).collect()
        }
    }
}

pub fn any_call(random: &mut Random, g: &Geometry, pool: &Pool) -> Call {
    match random.below(16) {
        0 => Call::Resume,
        _ => Call::Seven(random_call(random, g, pool)),
    }
}

/// The tables of an array that is empty, has a few entries, or an entry at every address.
pub fn tables_of_some_array(random: &mut Random, g: &Geometry, pool: &Pool) -> Tables {
    let entries = match random.below(8) {
        0 => vec![None; g.depth as usize],
        1 => (0..g.depth)
            .map(|_| Some(pool.pattern(random, g)))
            .collect(),
        _ => few_entries(random, g, pool),
    };
    image::tables(g, &entries)
}

/// Such tables as they are or with one change, at times with any damage.
pub fn any_tables(random: &mut Random, g: &Geometry, pool: &Pool) -> Tables {
    let mut tables = tables_of_some_array(random, g, pool);
    match random.below(8) {
        0 | 1 => {}
        2..=4 => {
            let (word, bit) = any_bit(random, g, pool, &tables);
            tables.indicators[word] ^= 1 << bit;
        }
        5 | 6 => change_entry(random, g, pool, &mut tables),
        _ => tables = damaged_tables(random, g, pool),
    }
    tables
}

/// A bit that is 1 for an entry, a padding bit, one at an end, or one of a likely pattern and a
/// likely set.
fn any_bit(random: &mut Random, g: &Geometry, pool: &Pool, tables: &Tables) -> (usize, u32) {
    let held = Binary::held(g, tables);
    let padding = 64 * g.row_words() > g.sets();
    match random.below(4) {
        0 if !held.is_empty() => {
            let address = random.pick(&held);
            bit_of(random, g, address, tables.store[address as usize])
        }
        1 if padding => padding_bit(random, g, tables.indicators.len()),
        2 => bit_at_an_end(random, tables.indicators.len()),
        _ => {
            let address = pool.address(random);
            let pattern = pool.pattern(random, g);
            bit_of(random, g, address, pattern)
        }
    }
}

/// The bit that an address and a pattern have in one of the pattern's rows.
fn bit_of(random: &mut Random, g: &Geometry, address: u32, pattern: u32) -> (usize, u32) {
    let row_start = g.row_start(pattern, random.below(g.stages()));
    let set = g.set_of(address);
    (row_start + set / 64, set as u32 % 64)
}

/// In any row, the first one, the last one or any other.
fn padding_bit(random: &mut Random, g: &Geometry, words: usize) -> (usize, u32) {
    let rows = words / g.row_words();
    let row = random.below(rows as u32) as usize;
    let first = g.sets() as u32 % 64;
    let any = random.between(first, 63);
    let bit = random.pick(&[first, 63, any]);
    (g.row_words() * (row + 1) - 1, bit)
}

/// Of the first, the last or any word the first, the last or any bit.
fn bit_at_an_end(random: &mut Random, words: usize) -> (usize, u32) {
    let any = (random.below(words as u32) as usize, random.below(64));
    let word = random.pick(&[0, words - 1, any.0]);
    (word, random.pick(&[0, 63, any.1]))
}

/// Another pattern, which in kind 2 the set may hold too; empty; or what is no pattern.
fn change_entry(random: &mut Random, g: &Geometry, pool: &Pool, tables: &mut Tables) {
    let likely = pool.address(random);
    let held = match &Binary::held(g, tables)[..] {
        [] => likely,
        held => random.pick(held),
    };
    let address = random.pick(&[0, g.depth - 1, likely, held]);
    let (over, pattern) = (g.patterns(), pool.pattern(random, g));
    let (high, higher) = (over + pattern, (1 << 31) + pattern);
    tables.store[address as usize] = random.pick(&[
        pattern,
        pattern,
        pattern,
        EMPTY,
        EMPTY,
        over,
        high,
        higher,
        EMPTY - 1,
    ]);
}
