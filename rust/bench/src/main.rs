//! Times first-match beside a plain loop over the same store, and resume beside plain ways to test
//! the same tables. Only ratios are printed: they are what can be compared.

mod memory;
mod plain;
mod random;
mod resume;
mod search;
mod timing;

use memory::Memory;
use search::{best_times, keys, Search};

fn main() {
    largest_segmented();
    println!();
    growth();
    println!();
    resume::beside_plain();
    println!();
    resume::growth();
}

/// Kind 2 with every number at its limit (rules 2.3 and 2.4 of docs/MEMORY.md). A first-match is to
/// take a quarter of the plain loop's time or less.
fn largest_segmented() {
    let memory = Memory::filled(cam::SEGMENTED, 4096, 12, 64);
    let keys = keys(&memory, 1_000_000);
    search::agree(&memory, &keys);
    let searches = [
        Search::FirstMatch(&memory),
        Search::Loop(&memory.store),
        Search::LoopBySixteens(&memory.store),
    ];
    let times = best_times(&searches, &keys, 5);
    println!("kind 2, D 4,096, P 12, W 64, a million first-matches, best of 5 rounds each");
    for (name, time) in [
        ("a loop, entry by entry", times[1]),
        ("a loop, sixteen entries at a time", times[2]),
    ] {
        let ratio = times[0] / time;
        println!("  first-match takes {ratio:.4} of the time of {name}");
    }
    let met = times[0] / times[1] <= 0.25;
    println!("  at most a quarter: {}", if met { "yes" } else { "NO" });
}

/// How the time of a first-match grows with the depth, in each kind and for the loop.
fn growth() {
    let columns = ["kind 0, P 12", "kind 1, P 27", "kind 2, P 12, W 64", "loop"];
    timing::print_growth("a first-match", &columns, times_at);
}

/// The times of the three kinds and of the loop at a depth, in this order.
fn times_at(depth: u32) -> Vec<f64> {
    let transposed = Memory::filled(cam::TRANSPOSED, depth, 12, 1);
    let cascaded = Memory::filled(cam::CASCADED, depth, 27, 1);
    let segmented = Memory::filled(cam::SEGMENTED, depth, 12, 64);
    let rounds = 7;
    let searches = 200_000;
    let mut times = Vec::new();
    for memory in [&transposed, &cascaded] {
        let keys = keys(memory, searches);
        search::agree(memory, &keys);
        times.extend(best_times(&[Search::FirstMatch(memory)], &keys, rounds));
    }
    let keys = keys(&segmented, searches);
    search::agree(&segmented, &keys);
    let both = [
        Search::FirstMatch(&segmented),
        Search::Loop(&segmented.store),
    ];
    times.extend(best_times(&both, &keys, rounds));
    times
}
