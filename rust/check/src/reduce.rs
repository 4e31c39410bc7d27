//! Cuts a failing trial down to one that a person can follow.

use crate::family::{AnyCall, Family, Sort, ADDRESS};
use crate::geometry::Geometry;
use crate::lent::AnyTables;
use crate::trial::Trial;
use std::collections::BTreeSet;
use std::ops::Range;

/// Whether a trial is one of its part and still fails.
pub type Fails<'a, T> = &'a dyn Fn(&T) -> bool;

/// One way to make a trial smaller; says whether it did.
type Step<F> = fn(&mut Trial<F>, Fails<Trial<F>>) -> bool;

/// A change that makes a trial smaller in some way.
type Edit<F> = Box<dyn Fn(&mut Trial<F>)>;

/// Removes calls until none can be removed, then erases entries, removes sets, lowers numbers and
/// empties tables where it still fails; begins again as long as something changes.
pub fn reduce<F: Family>(mut trial: Trial<F>, fails: Fails<Trial<F>>) -> Trial<F> {
    let steps: [Step<F>; 7] = [
        remove_calls,
        erase_entries,
        |trial, fails| edit_while_any(trial, fails, remove_first_sets),
        |trial, fails| edit_while_any(trial, fails, smaller_geometries),
        |trial, fails| edit_while_any(trial, fails, lower_numbers_of_calls),
        |trial, fails| edit_while_any(trial, fails, nearer_lengths),
        empty_tables,
    ];
    loop {
        let mut changed = false;
        for step in steps {
            changed |= step(&mut trial, fails);
        }
        if !changed {
            return trial;
        }
    }
}

/// Makes the edit if the trial still fails with it.
fn try_edit<T: Clone>(trial: &mut T, fails: Fails<T>, edit: impl Fn(&mut T)) -> bool {
    let mut candidate = trial.clone();
    edit(&mut candidate);
    let taken = fails(&candidate);
    if taken {
        *trial = candidate;
    }
    taken
}

/// Makes the first edit with which the trial still fails, and asks for edits again, until none is
/// left.
fn edit_while_any<F: Family>(
    trial: &mut Trial<F>,
    fails: Fails<Trial<F>>,
    edits: fn(&Trial<F>) -> Vec<Edit<F>>,
) -> bool {
    let mut changed = false;
    while edits(trial).iter().any(|edit| try_edit(trial, fails, edit)) {
        changed = true;
    }
    changed
}

fn remove_calls<F: Family>(trial: &mut Trial<F>, fails: Fails<Trial<F>>) -> bool {
    let remove = |trial: &mut Trial<F>, run| drop(trial.calls.drain(run));
    remove_runs(trial, fails, |trial| trial.calls.len(), remove)
}

/// Takes entries out of all tables at once.
fn erase_entries<F: Family>(trial: &mut Trial<F>, fails: Fails<Trial<F>>) -> bool {
    let held = |trial: &Trial<F>| F::held(&trial.geometry, &trial.before);
    let erase = |trial: &mut Trial<F>, run: Range<usize>| {
        for &address in &held(trial)[run] {
            F::erase(&trial.geometry, &mut trial.before, address);
        }
    };
    remove_runs(trial, fails, |trial| held(trial).len(), erase)
}

/// Removes runs of what a trial is a sequence of, long runs first.
pub fn remove_runs<T: Clone>(
    trial: &mut T,
    fails: Fails<T>,
    length: impl Fn(&T) -> usize,
    remove: impl Fn(&mut T, Range<usize>),
) -> bool {
    let mut changed = false;
    let mut run = length(trial);
    while run > 0 {
        let mut end = length(trial);
        while end > 0 {
            let start = end.saturating_sub(run);
            changed |= try_edit(trial, fails, |trial| remove(trial, start..end));
            end = start;
        }
        run /= 2;
    }
    changed
}

/// Removes sets before what is left, with all that the tables and the calls have there, so that what
/// is in the last set stays in it.
fn remove_first_sets<F: Family>(trial: &Trial<F>) -> Vec<Edit<F>> {
    let old = trial.geometry;
    if !old.is_valid() {
        return Vec::new();
    }
    let left = lower_numbers(old.sets() as u32).into_iter();
    let edit = |left| -> Option<Edit<F>> {
        let distance = (old.sets() as u32 - left) * old.set_width;
        let depth = old.depth.checked_sub(distance)?;
        let new = Geometry { depth, ..old };
        let tables = F::without_first(&old, &trial.before, &new)?;
        let lower = move |(sort, n): (Sort, u32)| match sort {
            ADDRESS => n.saturating_sub(distance),
            _ => n,
        };
        Some(Box::new(move |trial| {
            change_geometry(trial, new);
            trial.before = tables.clone();
            change_numbers(trial, lower);
        }))
    };
    left.filter_map(edit).collect()
}

fn lower_numbers(n: u32) -> Vec<u32> {
    let mut lower = vec![0, 1, n / 2, n.saturating_sub(1)];
    lower.retain(|&number| number < n);
    lower
}

fn smaller_geometries<F: Family>(trial: &Trial<F>) -> Vec<Edit<F>> {
    let g = trial.geometry;
    let mut smaller = Vec::new();
    for pattern_width in lower_numbers(g.pattern_width) {
        smaller.push(Geometry { pattern_width, ..g });
    }
    for depth in lower_numbers(g.depth) {
        smaller.push(Geometry { depth, ..g });
    }
    // Narrower sets, more of them or as many. In the second case a last set that is short stays so.
    let before_last = g.depth.div_ceil(g.set_width.max(1)).saturating_sub(1);
    let last = g.depth - before_last * g.set_width;
    for set_width in lower_numbers(g.set_width) {
        let depth = before_last * set_width + last.min(set_width);
        smaller.push(Geometry { set_width, ..g });
        smaller.push(Geometry {
            depth,
            set_width,
            ..g
        });
    }
    let edit = |new| -> Edit<F> { Box::new(move |trial| change_geometry(trial, new)) };
    smaller.into_iter().map(edit).collect()
}

/// What had the right length for a valid geometry gets the right length for another.
fn change_geometry<F: Family>(trial: &mut Trial<F>, new: Geometry) {
    let old = trial.geometry;
    trial.geometry = new;
    if !(old.is_valid() && new.is_valid()) {
        return;
    }
    for lent in trial.lent_mut() {
        if lent.fits(&old) {
            lent.resize(lent.right_length(&new));
        }
    }
}

fn lower_numbers_of_calls<F: Family>(trial: &Trial<F>) -> Vec<Edit<F>> {
    let mut edits: Vec<Edit<F>> = Vec::new();
    for (i, call) in trial.calls.iter().enumerate() {
        for (k, (_, old)) in numbers_of(call).into_iter().enumerate() {
            for new in lower_numbers(old) {
                edits.push(Box::new(move |trial| {
                    *trial.calls[i].numbers()[k].1 = new;
                }));
            }
        }
    }
    edits.extend(lower_numbers_together(trial));
    edits
}

/// Lowers a number in all calls that have it, so that calls which belong together stay so.
fn lower_numbers_together<F: Family>(trial: &Trial<F>) -> Vec<Edit<F>> {
    let mut edits: Vec<Edit<F>> = Vec::new();
    for old in numbers(trial) {
        for new in lower_numbers(old.1) {
            let lower = move |number: (Sort, u32)| if number == old { new } else { number.1 };
            edits.push(Box::new(move |trial| change_numbers(trial, lower)));
        }
    }
    for distance in whole_sets_below(trial) {
        let lower = move |(sort, n)| if sort == ADDRESS { n - distance } else { n };
        edits.push(Box::new(move |trial| change_numbers(trial, lower)));
    }
    edits
}

fn change_numbers<F: Family>(trial: &mut Trial<F>, to: impl Fn((Sort, u32)) -> u32) {
    let calls = trial.calls.iter_mut();
    for (sort, number) in calls.flat_map(|call| call.numbers()) {
        *number = to((sort, *number));
    }
}

fn numbers_of(call: &impl AnyCall) -> Vec<(Sort, u32)> {
    let mut call = call.clone();
    let numbers = call.numbers().into_iter();
    numbers.map(|(sort, number)| (sort, *number)).collect()
}

/// The different numbers of each sort in the calls.
fn numbers<F: Family>(trial: &Trial<F>) -> BTreeSet<(Sort, u32)> {
    trial.calls.iter().flat_map(numbers_of).collect()
}

/// How far all addresses can move down together, each staying at its offset.
fn whole_sets_below<F: Family>(trial: &Trial<F>) -> Vec<u32> {
    let set_width = trial.geometry.set_width.max(1);
    let numbers = numbers(trial).into_iter();
    let addresses = numbers.filter(|&(sort, _)| sort == ADDRESS);
    let lowest = addresses.map(|(_, address)| address).min().unwrap_or(0);
    let sets = lowest / set_width;
    let mut distances = vec![sets * set_width, sets / 2 * set_width];
    distances.retain(|&distance| distance > 0);
    distances
}

/// Brings lengths that are wrong nearer to the right ones.
fn nearer_lengths<F: Family>(trial: &Trial<F>) -> Vec<Edit<F>> {
    let g = trial.geometry;
    let mut edits: Vec<Edit<F>> = Vec::new();
    if !g.is_valid() {
        return edits;
    }
    for (i, lent) in trial.lent().into_iter().enumerate() {
        for length in nearer(lent.length(), lent.right_length(&g)) {
            edits.push(Box::new(move |trial| trial.lent_mut()[i].resize(length)));
        }
    }
    edits
}

/// The right length and those next to it, where they are nearer than this one.
fn nearer(length: usize, right: usize) -> Vec<usize> {
    let mut lengths = vec![right, right.saturating_sub(1), right + 1];
    lengths.retain(|candidate| candidate.abs_diff(right) < length.abs_diff(right));
    lengths
}

/// Empties words of every table, and then clears bits of what is left.
fn empty_tables<F: Family>(trial: &mut Trial<F>, fails: Fails<Trial<F>>) -> bool {
    let mut changed = false;
    let tables = trial.before.all().len();
    for step in [empty_words, empty_bits] {
        for table in 0..tables {
            changed |= step(trial, fails, table);
        }
    }
    changed
}

/// Makes runs of a table's words empty, long runs first.
fn empty_words<F: Family>(trial: &mut Trial<F>, fails: Fails<Trial<F>>, table: usize) -> bool {
    let mut changed = false;
    let length = trial.before.all()[table].length();
    let mut run = length;
    while run > 0 {
        for start in (0..length).step_by(run) {
            let words = start..(start + run).min(length);
            if !trial.before.all()[table].is_empty(words.clone()) {
                changed |= try_edit(trial, fails, |trial| {
                    trial.before.all_mut()[table].empty(words.clone())
                });
            }
        }
        run /= 2;
    }
    changed
}

/// Clears single bits of the words that are left.
fn empty_bits<F: Family>(trial: &mut Trial<F>, fails: Fails<Trial<F>>, table: usize) -> bool {
    let mut changed = false;
    for word in 0..trial.before.all()[table].length() {
        for bit in trial.before.all()[table].bits(word) {
            changed |= try_edit(trial, fails, |trial| {
                trial.before.all_mut()[table].flip(word, bit)
            });
        }
    }
    changed
}
