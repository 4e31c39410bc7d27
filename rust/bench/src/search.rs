//! The searches that are timed, and how.

use crate::memory::Memory;
use crate::random::Random;
use crate::timing::best_of_rounds;
use std::hint::black_box;
use std::time::Instant;

/// What stands for no address, as first-match's code has it.
const NONE: u32 = 65_535;

pub enum Search<'a> {
    FirstMatch(&'a Memory),
    Loop(&'a [u32]),
    LoopBySixteens(&'a [u32]),
}

/// Every second key is a stored pattern, each of them as often as the next, and the others are
/// absent; then all are shuffled, so that their order cannot be foreseen.
pub fn keys(memory: &Memory, count: u32) -> Vec<u32> {
    let stored = memory.stored();
    let mut keys: Vec<u32> = (0..count)
        .map(|i| match i % 2 {
            0 => memory.pattern(stored + i / 2 % stored),
            _ => memory.pattern(i / 2 % stored),
        })
        .collect();
    Random::new().shuffle(&mut keys);
    keys
}

/// The smallest address that has the key, by asking one after the other.
#[inline(never)]
fn plain_loop(store: &[u32], key: u32) -> u32 {
    for (address, &entry) in store.iter().enumerate() {
        if entry == key {
            return address as u32;
        }
    }
    NONE
}

/// The same, but sixteen entries are compared before it is asked whether one was equal, which the
/// compiler turns into vector instructions.
#[inline(never)]
fn loop_by_sixteens(store: &[u32], key: u32) -> u32 {
    for (block, entries) in store.chunks(16).enumerate() {
        let equal = entries
            .iter()
            .fold(false, |any, &entry| any | (entry == key));
        if equal {
            return 16 * block as u32 + plain_loop(entries, key);
        }
    }
    NONE
}

impl Search<'_> {
    /// Seconds for all keys.
    fn time(&self, keys: &[u32]) -> f64 {
        let start = Instant::now();
        match self {
            Search::FirstMatch(memory) => run(keys, |key| memory.first_match(key)),
            Search::Loop(store) => run(keys, |key| plain_loop(black_box(store), key)),
            Search::LoopBySixteens(store) => {
                run(keys, |key| loop_by_sixteens(black_box(store), key))
            }
        }
        start.elapsed().as_secs_f64()
    }
}

/// Nothing of a search can be left out or shared between keys.
fn run(keys: &[u32], search: impl Fn(u32) -> u32) {
    for &key in keys {
        black_box(search(black_box(key)));
    }
}

/// The best time of each search.
pub fn best_times(searches: &[Search], keys: &[u32], rounds: usize) -> Vec<f64> {
    best_of_rounds(searches, rounds, |search| search.time(keys))
}

/// Times of different answers say nothing: every search must give the same address for every key.
pub fn agree(memory: &Memory, keys: &[u32]) {
    for &key in keys {
        let address = memory.first_match(key);
        assert_eq!(address, plain_loop(&memory.store, key), "key {key}");
        assert_eq!(address, loop_by_sixteens(&memory.store, key), "key {key}");
    }
}
