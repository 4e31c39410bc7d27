//! Random geometries, and geometries that break a rule.

use crate::geometry::{geometry, Geometry, CASCADED, SEGMENTED, TRANSPOSED};
use crate::random::Random;

/// Depths, or numbers of sets, around the places where a row gets another word.
const AROUND_WORDS: [u32; 9] = [63, 64, 65, 127, 128, 129, 191, 192, 193];

/// The largest tables of each kind.
const LARGEST: [Geometry; 5] = [
    geometry(TRANSPOSED, 4096, 12, 1),
    geometry(CASCADED, 4096, 27, 1),
    geometry(SEGMENTED, 4096, 12, 1),
    geometry(SEGMENTED, 4096, 12, 64),
    geometry(SEGMENTED, 4096, 12, 63),
];

/// Depths and set widths: a last set of one address, of some, and of all but one; and a set that has
/// all there are.
const AT_A_LIMIT: [(u32, u32); 9] = [
    (5, 2),
    (65, 64),
    (129, 2),
    (4096, 63),
    (1000, 64),
    (127, 64),
    (2, 2),
    (63, 63),
    (64, 64),
];

/// A valid geometry. Most have small tables, so that a run stays short, and few the largest there
/// are.
pub fn random_geometry(random: &mut Random) -> Geometry {
    if random.one_in(2500) {
        return random.pick(&LARGEST);
    }
    let mut g = match random.pick(&[TRANSPOSED, CASCADED, SEGMENTED, SEGMENTED]) {
        TRANSPOSED => geometry(TRANSPOSED, places(random), narrow(random), 1),
        CASCADED => geometry(CASCADED, places(random), wide(random), 1),
        _ => segmented(random),
    };
    let most_words = random.pick(&[1 << 12, 1 << 12, 1 << 12, 1 << 13]);
    while g.indicator_words() > most_words {
        g.pattern_width -= 1;
    }
    g
}

/// A number of addresses, or of sets.
fn places(random: &mut Random) -> u32 {
    match random.below(32) {
        0 => 4096,
        1 => random.between(1, 4096),
        2..=12 => random.pick(&AROUND_WORDS),
        _ => random.between(1, 16),
    }
}

fn narrow(random: &mut Random) -> u32 {
    match random.below(8) {
        0 => 12,
        1 => random.between(5, 12),
        _ => random.between(1, 4),
    }
}

fn wide(random: &mut Random) -> u32 {
    match random.below(3) {
        0 => random.between(1, 27),
        _ => random.pick(&[1, 8, 9, 10, 17, 18, 19, 26, 27]),
    }
}

/// Some whole sets, and in half of those with more than one a last set that lacks some addresses.
fn segmented(random: &mut Random) -> Geometry {
    let pattern_width = narrow(random);
    if random.one_in(16) {
        let (depth, set_width) = random.pick(&AT_A_LIMIT);
        return geometry(SEGMENTED, depth, pattern_width, set_width);
    }
    let set_width = match random.below(4) {
        0 => random.pick(&[1, 16, 32, 63, 64]),
        _ => random.between(1, 8),
    };
    let sets = places(random).min(4096_u32.div_ceil(set_width));
    let some = random.below(set_width);
    let lacking = match sets {
        1 => 0,
        _ => random.pick(&[0, some]),
    };
    let depth = (sets * set_width - lacking).min(4096);
    geometry(SEGMENTED, depth, pattern_width, set_width)
}

/// Breaks a rule: a number gets one too high, 0, or as high as it can be.
pub fn break_rule(random: &mut Random, g: &mut Geometry) {
    let widest = if g.kind == CASCADED { 27 } else { 12 };
    match random.below(4) {
        0 => g.kind = random.pick(&[3, 4, u32::MAX]),
        1 => g.depth = random.pick(&[0, 4097, 4097, u32::MAX]),
        2 => g.pattern_width = random.pick(&[0, widest + 1, widest + 1, 32, u32::MAX]),
        _ => bad_set_width(random, g),
    }
}

/// In kind 2 often one that is over 64 and not above the depth, or above it and not over 64.
fn bad_set_width(random: &mut Random, g: &mut Geometry) {
    if g.kind != SEGMENTED {
        let above = g.depth.saturating_add(1);
        g.set_width = random.pick(&[0, 2, 3, above, u32::MAX]);
        return;
    }
    match random.below(6) {
        0 => g.set_width = 0,
        1 => g.set_width = u32::MAX,
        2 | 3 => {
            g.set_width = 65;
            g.depth = random.between(65, 260);
        }
        _ => {
            g.depth = g.depth.min(63);
            g.set_width = random.pick(&[g.depth + 1, g.depth + 1, 64]);
        }
    }
}
