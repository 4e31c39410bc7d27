//! The seven calls made through both layers of the wrapper crate, and on a memory that has its own
//! tables.

use crate::binary::answer::Answer;
use crate::binary::call::Call;
use crate::binary::Tables;
use crate::geometry::Geometry;
use crate::note::note;
use crate::tables::MATCH_WORD;
use cam::raw;

pub fn raw(g: &Geometry, tables: &mut Tables, call: &mut Call) -> u64 {
    let g = wrapped(g);
    let (store, indicators) = (&mut tables.store, &mut tables.indicators);
    match call {
        Call::Clear => raw::clear(g, store, indicators),
        Call::Write { address, pattern } => raw::write(g, store, indicators, *address, *pattern),
        Call::Erase { address } => raw::erase(g, store, indicators, *address),
        Call::Read { address } => raw::read(g, store, indicators, *address),
        Call::FirstMatch { key } => raw::first_match(g, store, indicators, *key),
        Call::NextMatch { address, key } => raw::next_match(g, store, indicators, *address, *key),
        Call::AllMatch { key, lent } => raw::all_match(g, store, indicators, lent, *key),
    }
}

pub fn typed(g: &Geometry, tables: &mut Tables, call: &mut Call) -> Answer {
    let g = wrapped(g);
    let (store, indicators) = (&mut tables.store, &mut tables.indicators);
    let result = match call {
        Call::Clear => g.clear(store, indicators).map(|()| Answer::Cleared),
        Call::Write { address, pattern } => g
            .write(store, indicators, *address, *pattern)
            .map(Answer::Entry),
        Call::Erase { address } => g.erase(store, indicators, *address).map(Answer::Entry),
        Call::Read { address } => g.read(store, indicators, *address).map(Answer::Entry),
        Call::FirstMatch { key } => g.first_match(store, indicators, *key).map(first_answer),
        Call::NextMatch { address, key } => g
            .next_match(store, indicators, *address, *key)
            .map(Answer::Next),
        Call::AllMatch { key, lent } => {
            g.all_match(store, indicators, lent, *key)
                .map(|hits| Answer::Matches {
                    matches: lent.clone(),
                    hits,
                })
        }
    };
    result.unwrap_or_else(refused)
}

/// The match word is the memory's, not the one that is lent to the call.
pub fn owned(memory: &mut cam::Memory, call: &Call) -> Answer {
    let result = match *call {
        Call::Clear => memory.clear().map(|()| Answer::Cleared),
        Call::Write { address, pattern } => memory.write(address, pattern).map(Answer::Entry),
        Call::Erase { address } => memory.erase(address).map(Answer::Entry),
        Call::Read { address } => memory.read(address).map(Answer::Entry),
        Call::FirstMatch { key } => memory.first_match(key).map(first_answer),
        Call::NextMatch { address, key } => memory.next_match(address, key).map(Answer::Next),
        Call::AllMatch { key, .. } => memory.all_match(key).map(|found| Answer::Matches {
            matches: MATCH_WORD.table(&found.words),
            hits: found.hits,
        }),
    };
    result.unwrap_or_else(refused)
}

/// A walk by the wrapper's iterator comes to these addresses, to each once, and then to none (rule
/// 10.8). The codes are looked at first, as the wrapper panics at one that is no refusal's.
pub fn walk(g: &Geometry, tables: &Tables, key: u32, right: &[u32]) -> Result<(), String> {
    let (g, store, indicators) = (wrapped(g), &tables.store, &tables.indicators);
    let mut places = g.places(store, indicators, key);
    let mut last = None;
    for next in right.iter().copied().map(Some).chain([None]) {
        note().enter_walk();
        let code = match last {
            None => raw::first_match(g, store, indicators, key),
            Some(address) => raw::next_match(g, store, indicators, address, key),
        };
        let place = (!is_no_refusal(code)).then(|| places.next());
        note().leave_call();
        let right = next.map(Ok);
        if place != Some(right) {
            let given = place.map_or(format!("number {code}"), place_text);
            let way = last.map_or("begins at".to_string(), |a| format!("goes from {a} to"));
            let right = place_text(right);
            return Err(format!("a walk {way} {given}; right is {right}"));
        }
        last = next;
    }
    match places.next() {
        None => Ok(()),
        more => Err(format!(
            "a walk goes on after its end to {}",
            place_text(more)
        )),
    }
}

fn place_text(place: Option<Result<u32, cam::Refusal>>) -> String {
    match place {
        Some(Ok(address)) => address.to_string(),
        Some(Err(refusal)) => format!("refusal {}", refusal.number()),
        None => "none".to_string(),
    }
}

/// The wrapper panics at such a number.
pub fn is_no_refusal(code: u64) -> bool {
    matches!(code, 0 | 7..=9 | 11..=255)
}

fn refused(refusal: cam::Refusal) -> Answer {
    Answer::Refused(refusal.number())
}

pub fn wrapped(g: &Geometry) -> cam::Geometry {
    cam::Geometry {
        kind: g.kind,
        depth: g.depth,
        pattern_width: g.pattern_width,
        set_width: g.set_width,
    }
}

fn first_answer(found: cam::FirstMatch) -> Answer {
    let (words_read, entries_compared) = (found.words_read, found.entries_compared);
    match found.address {
        Some(address) => Answer::At {
            address,
            words_read,
            entries_compared,
        },
        None => Answer::NoMatch {
            words_read,
            entries_compared,
        },
    }
}
