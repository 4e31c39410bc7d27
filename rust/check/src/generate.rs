//! Random trials of a family: histories, from a call that begins one on tables that it accepts;
//! and single calls on tables that no history leaves, damaged ones, ones of wrong length, and of
//! bad geometries.

use crate::family::{Family, Histories};
use crate::geometry::Geometry;
use crate::lent::{AnyTables, Table};
use crate::random::Random;
use crate::shapes::break_rule;
use crate::tables::{EMPTY, MATCH_WORD};
use crate::trial::Trial;

pub fn random_history<F: Histories>(random: &mut Random) -> Trial<F> {
    let geometry = F::random_geometry(random);
    let pool = F::random_pool(random, &geometry);
    let mut calls = F::opening(random, &geometry, &pool);
    for _ in 0..random.between(1, 60) {
        calls.push(F::later_call(random, &geometry, &pool));
    }
    Trial {
        geometry,
        before: F::begun_on(random, &geometry, &pool, &calls[0]),
        calls,
    }
}

/// What a store may hold that nobody cleared.
pub fn dirty_store(random: &mut Random, g: &Geometry) -> Vec<u32> {
    let mut entry = || {
        let any = random.word() as u32;
        random.pick(&[EMPTY, 0, 1, g.patterns(), any])
    };
    (0..g.depth).map(|_| entry()).collect()
}

/// What indicators may hold that nobody cleared.
pub fn dirty_indicators(random: &mut Random, g: &Geometry) -> Vec<u64> {
    match random.below(4) {
        0 => vec![0; g.indicator_words()],
        1 => vec![u64::MAX; g.indicator_words()],
        _ => random.words(g.indicator_words()),
    }
}

/// A match word of any content, at times one of wrong length.
pub fn any_match_word(random: &mut Random, g: &Geometry) -> Table<u64> {
    let right = g.match_words();
    let length = match random.below(10) {
        0 => random.pick(&[0, right - 1, right + 1, 2 * right]),
        _ => right,
    };
    MATCH_WORD.table(&random.words(length))
}

pub fn random_single_call<F: Family>(random: &mut Random) -> Trial<F> {
    let geometry = F::random_geometry(random);
    let pool = F::random_pool(random, &geometry);
    let mut trial = Trial {
        geometry,
        before: F::damaged_tables(random, &geometry, &pool),
        calls: vec![F::single_call(random, &geometry, &pool)],
    };
    if random.one_in(6) {
        wrong_lengths(random, &mut trial);
    }
    if random.one_in(6) {
        bad_geometry(random, &mut trial);
    }
    trial
}

/// Of one or more of the tables and what is lent to the call alone, if anything is.
fn wrong_lengths<F: Family>(random: &mut Random, trial: &mut Trial<F>) {
    let tables = trial.before.all().len();
    let which = random.between(1, (2 << tables) - 1);
    for (i, lent) in trial.lent_mut().into_iter().enumerate() {
        if which >> i & 1 == 1 {
            lent.resize(other_length(random, lent.length()));
        }
    }
}

fn other_length(random: &mut Random, right: usize) -> usize {
    let shorter = right.saturating_sub(1);
    random.pick(&[0, shorter, right / 2, right + 1, right + 1, 2 * right])
}

/// Half of the time the tables get the lengths that the bad geometry would ask for, so that nothing
/// but the rule stands against the call.
fn bad_geometry<F: Family>(random: &mut Random, trial: &mut Trial<F>) {
    break_rule(random, &mut trial.geometry);
    let g = trial.geometry;
    if random.one_in(2) && asks_for_lengths(&g) {
        for lent in trial.lent_mut() {
            lent.resize(lent.right_length(&g));
        }
    }
}

/// Whether there are lengths that these numbers would ask for, and not too long ones.
fn asks_for_lengths(g: &Geometry) -> bool {
    if g.set_width == 0 || g.depth > 4097 || !(1..=28).contains(&g.pattern_width) {
        return false;
    }
    let rows_fit = g.kind == 1 || g.pattern_width <= 13;
    rows_fit && g.indicator_words() <= 1 << 14
}
