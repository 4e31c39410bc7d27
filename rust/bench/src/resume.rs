//! Resume beside two plain ways to test the same tables.

use crate::memory::Memory;
use crate::plain;
use crate::timing::{best_of_rounds, print_growth};
use cam::{Geometry, Refusal, CASCADED, EMPTY, SEGMENTED, TRANSPOSED};
use std::hint::black_box;
use std::time::Instant;

type Verdict = Result<(), Refusal>;
type Way = fn(Geometry, &[u32], &[u64]) -> Verdict;

const WAYS: [Way; 3] = [Geometry::resume, plain::two_looks, plain::image_anew];

/// The name, the kind, the pattern width and the set width of what is timed.
const KINDS: [(&str, u32, u32, u32); 3] = [
    ("kind 0, P 12", TRANSPOSED, 12, 1),
    ("kind 1, P 27", CASCADED, 27, 1),
    ("kind 2, P 12, W 64", SEGMENTED, 12, 64),
];

const ROUNDS: usize = 100;
const CALLS: usize = 10;

/// In each kind, at the largest depth. Resume is to take twice the time of the two looks or less.
pub fn beside_plain() {
    agree_on_padding();
    println!("resume, D 4,096, half of the addresses empty, best of {ROUNDS} rounds each");
    for (name, kind, pattern_width, set_width) in KINDS {
        let memory = Memory::half_full(kind, 4096, pattern_width, set_width);
        agree(&memory);
        let times = best_of_rounds(&WAYS, ROUNDS, |way| time(way, &memory));
        let (of_looks, of_image) = (times[0] / times[1], times[0] / times[2]);
        println!("  {name}");
        println!("    resume takes {of_looks:.2} of the time of the two looks in plain Rust");
        let met = of_looks <= 2.0;
        println!("    at most twice: {}", if met { "yes" } else { "NO" });
        println!("    resume takes {of_image:.2} of the time of the image made anew and compared");
    }
}

/// How the time of a resume grows with the depth.
pub fn growth() {
    print_growth("a resume", &KINDS.map(|(name, ..)| name), |depth| {
        let memories = KINDS.map(|(_, kind, pattern_width, set_width)| {
            Memory::half_full(kind, depth, pattern_width, set_width)
        });
        best_of_rounds(&memories, ROUNDS, |memory| time(&WAYS[0], memory))
    });
}

/// Seconds for some calls on the same tables. None of them can be left out.
fn time(way: &Way, memory: &Memory) -> f64 {
    let start = Instant::now();
    for _ in 0..CALLS {
        let lent = black_box(memory);
        black_box(way(lent.geometry, &lent.store, &lent.indicators)).expect("resume");
    }
    start.elapsed().as_secs_f64()
}

/// Times of different verdicts say nothing: every way must accept the tables, and refuse them with
/// one and the same number where something is changed.
fn agree(memory: &Memory) {
    let changed = |change: &dyn Fn(&mut Memory)| {
        let mut memory = memory.clone();
        change(&mut memory);
        verdict(&memory)
    };
    assert_eq!(verdict(memory), Ok(()));
    for bit in bits_of_each_sort(memory) {
        let flipped = changed(&|m| m.indicators[bit / 64] ^= 1 << (bit % 64));
        assert_eq!(flipped, Err(Refusal::Tables), "bit {bit}");
    }
    let empty = memory.store.iter().position(|&entry| entry == EMPTY);
    let empty = empty.expect("an empty address");
    let no_pattern = changed(&|m| m.store[empty] = 1 << m.geometry.pattern_width);
    assert_eq!(no_pattern, Err(Refusal::Tables));
    let shorter = changed(&|m| m.indicators.truncate(m.indicators.len() - 1));
    assert_eq!(shorter, Err(Refusal::Lengths));
    let no_geometry = changed(&|m| m.geometry.set_width = 65);
    assert_eq!(no_geometry, Err(Refusal::Geometry));
}

/// The verdict of every way.
fn verdict(memory: &Memory) -> Verdict {
    let verdicts = WAYS.map(|way| way(memory.geometry, &memory.store, &memory.indicators));
    assert_eq!(verdicts, [verdicts[0]; 3], "{:?}", memory.geometry);
    verdicts[0]
}

/// Bits of the indicators, counted through all words: one that is 1, one that is 0 and a set's, and
/// one of the padding, if there is any.
fn bits_of_each_sort(memory: &Memory) -> Vec<usize> {
    let sets = memory.geometry.depth.div_ceil(memory.geometry.set_width) as usize;
    let row_bits = sets.next_multiple_of(64);
    let is_one = |&bit: &usize| memory.indicators[bit / 64] >> (bit % 64) & 1 == 1;
    let is_padding = |&bit: &usize| bit % row_bits >= sets;
    let bits = 0..64 * memory.indicators.len();
    let one = bits.clone().rfind(is_one);
    let zero = bits.clone().rfind(|bit| !is_one(bit) && !is_padding(bit));
    let padding = bits.clone().rfind(is_padding);
    [one, zero, padding].into_iter().flatten().collect()
}

/// The depths that are timed fill their words and their sets. Here words have padding, and at last a
/// set is short.
fn agree_on_padding() {
    for (kind, pattern_width, set_width) in [
        (TRANSPOSED, 3, 1),
        (CASCADED, 20, 1),
        (SEGMENTED, 3, 2),
        (SEGMENTED, 3, 9),
    ] {
        agree(&Memory::half_full(kind, 140, pattern_width, set_width));
    }
}
