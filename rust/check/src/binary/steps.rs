//! Every call on tables of any length and content: sections 8 and 9 of docs/MEMORY.md.

use crate::binary::answer::Answer;
use crate::binary::call::Call;
use crate::binary::Tables;
use crate::family::AnyCall;
use crate::geometry::{Geometry, CASCADED, SEGMENTED};
use crate::lent::AnyTables;
use crate::tables::{clear_bit, in_every_row, set_bit, EMPTY, MATCH_WORD};

/// A refusal comes before the first write, so that the call leaves what it found (rule 9.2).
pub fn step(g: &Geometry, tables: &mut Tables, call: &Call) -> Answer {
    if let Some(number) = refusal(g, tables, call) {
        return Answer::Refused(number);
    }
    match *call {
        Call::Clear => clear(tables),
        Call::Write { address, pattern } => write(g, tables, address, pattern),
        Call::Erase { address } => erase(g, tables, address),
        Call::Read { address } => entry_answer(tables.store[address as usize]),
        Call::FirstMatch { key } => first_match(g, tables, key),
        Call::NextMatch { address, key } => next_match(g, tables, address, key),
        Call::AllMatch { key, .. } => all_match(g, tables, key),
    }
}

/// The table of rule 9.1, row by row.
fn refusal(g: &Geometry, tables: &Tables, call: &Call) -> Option<u32> {
    if !g.is_valid() {
        return Some(1);
    }
    if !lengths_fit(g, tables, call) {
        return Some(2);
    }
    if call.address().is_some_and(|a| a >= g.depth) {
        return Some(3);
    }
    if call.pattern().is_some_and(|p| p >= g.patterns()) {
        return Some(4);
    }
    if let Some(address) = address_of_entry(call) {
        let entry = tables.store[address as usize];
        if entry != EMPTY && entry >= g.patterns() {
            return Some(5);
        }
    }
    if g.kind == SEGMENTED && meets_false_set(g, tables, call) {
        return Some(6);
    }
    None
}

fn lengths_fit(g: &Geometry, tables: &Tables, call: &Call) -> bool {
    tables.fit(g) && call.lent().is_none_or(|lent| lent.fits(g))
}

/// Of the calls that are given an address, a next-match alone does not ask what it has (rule 8.13).
fn address_of_entry(call: &Call) -> Option<u32> {
    match call {
        Call::NextMatch { .. } => None,
        _ => call.address(),
    }
}

/// Only the first indicated set matters to a first-match, every one to an all-match (rule 8.9), and
/// to a next-match the first one after its own set, where that has no answer (rule 8.14).
fn meets_false_set(g: &Geometry, tables: &Tables, call: &Call) -> bool {
    let is_false = |set: usize, key: u32| equal_entries(g, tables, set, key).is_empty();
    match *call {
        Call::FirstMatch { key } => indicated_sets(g, tables, key)
            .first()
            .is_some_and(|&set| is_false(set, key)),
        Call::NextMatch { address, key } => {
            next_in_own_set(g, tables, address, key).is_none()
                && next_indicated(g, tables, address, key).is_some_and(|set| is_false(set, key))
        }
        Call::AllMatch { key, .. } => indicated_sets(g, tables, key)
            .iter()
            .any(|&set| is_false(set, key)),
        _ => false,
    }
}

/// All of both tables, padding bits too (rule 8.1).
fn clear(tables: &mut Tables) -> Answer {
    tables.store.fill(EMPTY);
    tables.indicators.fill(0);
    Answer::Cleared
}

/// The letters are those of rule 8.3. Where q is not empty it is a pattern: anything else was
/// refused with 5.
fn write(g: &Geometry, tables: &mut Tables, a: u32, p: u32) -> Answer {
    let q = tables.store[a as usize];
    let s = g.set_of(a);
    for stage in 0..g.stages() {
        set_bit(&mut tables.indicators, g.row_start(p, stage), s);
    }
    if g.kind == CASCADED {
        for stage in 0..g.stages() {
            if q != EMPTY && g.stage_value(q, stage) != g.stage_value(p, stage) {
                clear_bit(&mut tables.indicators, g.row_start(q, stage), s);
            }
        }
    } else if q != EMPTY && q != p && !another_holds(g, tables, a, q) {
        clear_bit(&mut tables.indicators, g.row_start(q, 0), s);
    }
    tables.store[a as usize] = p;
    entry_answer(q)
}

/// In kind 1 a set has no other address, so that the bits of all stages go (rule 8.4).
fn erase(g: &Geometry, tables: &mut Tables, a: u32) -> Answer {
    let q = tables.store[a as usize];
    if q != EMPTY && !another_holds(g, tables, a, q) {
        for stage in 0..g.stages() {
            clear_bit(&mut tables.indicators, g.row_start(q, stage), g.set_of(a));
        }
    }
    tables.store[a as usize] = EMPTY;
    entry_answer(q)
}

fn another_holds(g: &Geometry, tables: &Tables, a: u32, q: u32) -> bool {
    g.addresses_of(g.set_of(a))
        .any(|other| other != a && tables.store[other as usize] == q)
}

/// The joined row is taken word by word up to the first indicated set (rule 8.7), and w and c are
/// counted on the way (rule 8.10).
fn first_match(g: &Geometry, tables: &Tables, key: u32) -> Answer {
    let mut words_read = 0;
    for word in 0..g.row_words() {
        words_read += 1;
        for set in 64 * word..64 * word + 64 {
            if !is_indicated(g, tables, key, set) {
                continue;
            }
            if g.kind != SEGMENTED {
                return Answer::At {
                    address: set as u32,
                    words_read,
                    entries_compared: 0,
                };
            }
            let (mut entries_compared, mut lowest) = (0, None);
            for address in g.addresses_of(set) {
                entries_compared += 1;
                if tables.store[address as usize] == key {
                    lowest = lowest.or(Some(address));
                }
            }
            return Answer::At {
                address: lowest.expect("refusal 6 comes first"),
                words_read,
                entries_compared,
            };
        }
    }
    Answer::NoMatch {
        words_read,
        entries_compared: 0,
    }
}

/// From the own set, else from the first indicated set after it, whose number in kinds 0 and 1 is
/// the address (rule 8.14).
fn next_match(g: &Geometry, tables: &Tables, address: u32, key: u32) -> Answer {
    let next = next_in_own_set(g, tables, address, key);
    let later = || {
        let set = next_indicated(g, tables, address, key)?;
        Some(match g.kind {
            // A false set was refused with 6.
            SEGMENTED => equal_entries(g, tables, set, key)[0],
            _ => set as u32,
        })
    };
    Answer::Next(next.or_else(later))
}

/// The lowest address of the own set that is above the address and has the key. The indicators are
/// not asked (rule 8.13). In kinds 0 and 1 the set ends with the address.
fn next_in_own_set(g: &Geometry, tables: &Tables, address: u32, key: u32) -> Option<u32> {
    let mut own = g.addresses_of(g.set_of(address));
    own.find(|&a| a > address && tables.store[a as usize] == key)
}

/// The first indicated set after that of the address.
fn next_indicated(g: &Geometry, tables: &Tables, address: u32, key: u32) -> Option<usize> {
    let mut later = g.set_of(address) + 1..g.sets();
    later.find(|&set| is_indicated(g, tables, key, set))
}

/// The hits, and the match word that has their bits alone (rule 8.8).
fn all_match(g: &Geometry, tables: &Tables, key: u32) -> Answer {
    let mut matches = vec![0; g.match_words()];
    let mut hits = 0;
    for set in indicated_sets(g, tables, key) {
        let addresses = match g.kind {
            SEGMENTED => equal_entries(g, tables, set, key),
            _ => vec![set as u32],
        };
        for a in addresses {
            matches[a as usize / 64] += 1 << (a % 64);
            hits += 1;
        }
    }
    Answer::Matches {
        matches: MATCH_WORD.table(&matches),
        hits,
    }
}

/// Whether the bit of this number is 1 in the joined row, where padding bits are 0 (rule 8.6).
fn is_indicated(g: &Geometry, tables: &Tables, key: u32, set: usize) -> bool {
    set < g.sets() && in_every_row(g, &tables.indicators, key, set)
}

fn indicated_sets(g: &Geometry, tables: &Tables, key: u32) -> Vec<usize> {
    (0..g.sets())
        .filter(|&set| is_indicated(g, tables, key, set))
        .collect()
}

fn equal_entries(g: &Geometry, tables: &Tables, set: usize, key: u32) -> Vec<u32> {
    g.addresses_of(set)
        .filter(|&address| tables.store[address as usize] == key)
        .collect()
}

fn entry_answer(stored: u32) -> Answer {
    Answer::Entry((stored != EMPTY).then_some(stored))
}
