//! The calls and the tables of the binary memory's random trials, with calls that get in one
//! another's way.

use crate::binary::call::Call;
use crate::binary::{image, Tables};
use crate::generate::{any_match_word, dirty_indicators, dirty_store};
use crate::geometry::{Geometry, SEGMENTED};
use crate::pool::Pool;
use crate::random::Random;
use crate::tables::{set_bit, EMPTY, INDICATORS, STORE};

/// The sets at which a row word ends or begins.
pub const EDGES: [usize; 4] = [63, 64, 127, 128];

pub fn dirty_tables(random: &mut Random, g: &Geometry) -> Tables {
    Tables {
        store: STORE.table(&dirty_store(random, g)),
        indicators: INDICATORS.table(&dirty_indicators(random, g)),
    }
}

/// A clear, at times with a write to every address.
pub fn opening(random: &mut Random, g: &Geometry, pool: &Pool) -> Vec<Call> {
    let mut calls = vec![Call::Clear];
    if random.one_in(200) {
        calls.extend(full_memory(random, g, pool));
    }
    calls
}

/// A write to every address.
fn full_memory(random: &mut Random, g: &Geometry, pool: &Pool) -> Vec<Call> {
    let from_pool = random.one_in(2);
    let mut write = |address| Call::Write {
        address,
        pattern: match from_pool {
            true => pool.pattern(random, g),
            false => address / 2 % g.patterns(),
        },
    };
    (0..g.depth).map(&mut write).collect()
}

pub fn random_call(random: &mut Random, g: &Geometry, pool: &Pool) -> Call {
    match random.below(8) {
        0 => next_match(random, g, pool),
        _ => call_of_jobs(random, g, pool),
    }
}

/// Any call but a next-match.
pub fn call_of_jobs(random: &mut Random, g: &Geometry, pool: &Pool) -> Call {
    match random.below(100) {
        0..=39 => Call::Write {
            address: pool.any_address(random, g),
            pattern: pool.any_pattern(random, g),
        },
        40..=54 => Call::Erase {
            address: pool.any_address(random, g),
        },
        55..=62 => Call::Read {
            address: pool.any_address(random, g),
        },
        63..=82 => Call::FirstMatch {
            key: pool.any_key(random, g),
        },
        83..=98 => Call::AllMatch {
            key: pool.any_key(random, g),
            lent: any_match_word(random, g),
        },
        _ => Call::Clear,
    }
}

fn next_match(random: &mut Random, g: &Geometry, pool: &Pool) -> Call {
    Call::NextMatch {
        address: pool.any_address(random, g),
        key: pool.any_key(random, g),
    }
}

/// Where there are sets at edges or a short one, often above one of them, for the pattern that they
/// have; at times out of range in both numbers.
fn next_match_on_edges(random: &mut Random, g: &Geometry, pool: &Pool) -> Call {
    let edge = random.pick(&[0, 63, 63, 64, 127, 127]);
    let set = match random.below(32) {
        0 => {
            return Call::NextMatch {
                address: g.depth + random.below(2),
                key: g.patterns() + random.below(2),
            }
        }
        1..=20 => Some(edge).filter(|&set| set < g.sets()),
        21..=28 => g.short_set(),
        _ => None,
    };
    match set {
        Some(set) => Call::NextMatch {
            address: any_of_set(random, g, set),
            key: pool.patterns[0],
        },
        None => next_match(random, g, pool),
    }
}

fn any_of_set(random: &mut Random, g: &Geometry, set: usize) -> u32 {
    let addresses = g.addresses_of(set);
    random.between(addresses.start, addresses.end - 1)
}

/// Clears have little to show on damaged tables, so they get no more than their share, and
/// next-matches more than theirs.
pub fn mostly_not_clear(random: &mut Random, g: &Geometry, pool: &Pool) -> Call {
    match random.below(25) {
        0 => Call::Clear,
        1..=4 => next_match_on_edges(random, g, pool),
        _ => random_call(random, g, pool),
    }
}

/// An array with a few entries that are near one another.
pub fn few_entries(random: &mut Random, g: &Geometry, pool: &Pool) -> Vec<Option<u32>> {
    let mut entries = vec![None; g.depth as usize];
    for _ in 0..random.below(12) {
        entries[pool.address(random) as usize] = Some(pool.pattern(random, g));
    }
    entries
}

/// A sound memory with a few entries, then some damage.
pub fn damaged_tables(random: &mut Random, g: &Geometry, pool: &Pool) -> Tables {
    let mut tables = image::tables(g, &few_entries(random, g, pool));
    if random.one_in(16) {
        let any = random.words(tables.indicators.len());
        tables.indicators.copy_from_slice(&any);
    }
    for _ in 0..random.below(4) {
        damage_store(random, g, pool, &mut tables.store);
    }
    for _ in 0..random.below(6) {
        damage_indicators(random, g, pool, &mut tables.indicators);
    }
    tables
}

/// Mostly some sets at edges get the first pattern of the pool: its bits, and in kind 2 often an
/// entry, so that next-matches meet them. A short set often gets it too.
pub fn tables_of_single_calls(random: &mut Random, g: &Geometry, pool: &Pool) -> Tables {
    let mut tables = damaged_tables(random, g, pool);
    let pattern = pool.patterns[0];
    let any = random.below(16);
    // The last one alone is found past a whole word.
    let chosen = random.pick(&[any, any, any, 8]);
    for (i, &set) in EDGES.iter().enumerate() {
        if set < g.sets() && chosen >> i & 1 == 1 {
            for stage in 0..g.stages() {
                set_bit(&mut tables.indicators, g.row_start(pattern, stage), set);
            }
            if g.kind == SEGMENTED && !random.one_in(8) {
                tables.store[any_of_set(random, g, set) as usize] = pattern;
            }
        }
    }
    if let Some(short) = g.short_set() {
        fill_short_set(random, g, pattern, short, &mut tables);
    }
    tables
}

/// An entry, the bit of the set and the padding bit beside it, or any of them without the others.
fn fill_short_set(
    random: &mut Random,
    g: &Geometry,
    pattern: u32,
    short: usize,
    tables: &mut Tables,
) {
    let row = g.row_start(pattern, 0);
    if random.one_in(2) {
        tables.store[any_of_set(random, g, short) as usize] = pattern;
    }
    for place in short..(short + 2).min(64 * g.row_words()) {
        if random.one_in(3) {
            set_bit(&mut tables.indicators, row, place);
        }
    }
}

/// An entry that is no pattern, or one that the indicators do not mirror.
fn damage_store(random: &mut Random, g: &Geometry, pool: &Pool, store: &mut [u32]) {
    let over = g.patterns();
    let pattern = pool.pattern(random, g);
    store[pool.address(random) as usize] =
        random.pick(&[over, over + 1, EMPTY - 1, pattern, pattern, EMPTY]);
}

/// Flips a bit: any bit at all, or in the row of a likely pattern one that belongs to a likely set
/// or is a padding bit. In kind 1 the bit is flipped in each of the pattern's rows, so that a
/// joined word shows it.
fn damage_indicators(random: &mut Random, g: &Geometry, pool: &Pool, indicators: &mut [u64]) {
    if random.one_in(4) {
        let word = random.below(indicators.len() as u32) as usize;
        indicators[word] ^= 1 << random.below(64);
        return;
    }
    let pattern = pool.pattern(random, g);
    let padding = 64 * g.row_words() - g.sets();
    let place = if padding > 0 && random.one_in(3) {
        g.sets() + random.below(padding as u32) as usize
    } else if random.one_in(3) {
        random.below(g.sets() as u32) as usize
    } else {
        g.set_of(pool.address(random))
    };
    for stage in 0..g.stages() {
        indicators[g.row_start(pattern, stage) + place / 64] ^= 1 << (place % 64);
    }
}
