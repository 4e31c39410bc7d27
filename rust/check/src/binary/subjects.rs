//! The troubles that the random trials of the seven calls are made to meet, by name, and how each
//! is recognised; those of next-matches are in `next_subjects`, and those of a last set that is
//! short in `short_subjects`.

use crate::binary::answer::Answer;
use crate::binary::array::Array;
use crate::binary::call::Call;
use crate::binary::{next_subjects, short_subjects, Tables};
use crate::geometry::{Geometry, CASCADED, SEGMENTED};
use crate::subjects::{alone, broken_rules, limits, those, Subject};
use crate::tables::{in_every_row, EMPTY};

const LARGEST: Subject = "a clear at depth 4,096 with the widest patterns";
const OVER_ITSELF: Subject = "a pattern written over itself";
const SHARED_OVERWRITTEN: Subject = "a pattern overwritten that a neighbour in its set holds";
const ALONE_OVERWRITTEN: Subject = "a pattern overwritten that no neighbour in its set holds";
const SHARED_ERASED: Subject = "a pattern erased that a neighbour in its set holds";
const STAGE_KEPT: Subject = "a pattern overwritten by another that shares a stage with it";
const ZERO_WRITTEN: Subject = "pattern 0 written";
const ZERO_MISSED: Subject = "pattern 0 sought where no entry is 0 and some are empty";
const STAGES_MIXED: Subject = "a key whose stages are all stored, but not in one entry";
const OTHER_LOW_NINE: Subject = "a key that differs from an entry in the low nine bits alone";
const OTHER_MIDDLE_NINE: Subject = "a key that differs from an entry in the middle nine bits alone";
const OTHER_TOP_NINE: Subject = "a key that differs from an entry in the top nine bits alone";
const OTHER_NARROW_LAST: Subject =
    "a key that differs from an entry in the narrow last stage alone";
pub const CLEARED_LATER: Subject = "a clear of a memory that holds something";
pub const LATER_WORD: Subject = "a first match after the first word of its row";
pub const LATER_PLACE: Subject = "a first match past offset 0 of its set";
pub const EARLIER_PLACE: Subject = "a first match before the last offset of its set";
pub const HELD_AGAIN: Subject = "a first match whose set holds the key again";
pub const WORDS_OF_HITS: Subject = "hits in more than one match word";

pub const OF_HISTORIES: &[Subject] = &[
    LARGEST,
    OVER_ITSELF,
    SHARED_OVERWRITTEN,
    ALONE_OVERWRITTEN,
    SHARED_ERASED,
    STAGE_KEPT,
    ZERO_WRITTEN,
    ZERO_MISSED,
    STAGES_MIXED,
    OTHER_LOW_NINE,
    OTHER_MIDDLE_NINE,
    OTHER_TOP_NINE,
    OTHER_NARROW_LAST,
    CLEARED_LATER,
    LATER_WORD,
    LATER_PLACE,
    EARLIER_PLACE,
    HELD_AGAIN,
    WORDS_OF_HITS,
];

const STORE_LENGTH: Subject = "a store of wrong length, the other lengths right";
const INDICATORS_LENGTH: Subject = "indicators of wrong length, the other lengths right";
const MATCH_LENGTH: Subject = "a match word of wrong length, all else in range";
const MATCH_LENGTH_AND_KEY: Subject = "a match word of wrong length and a key out of range";
pub const ADDRESS_AND_PATTERN: Subject = "address and pattern both out of range";
const PATTERN_AND_ENTRY: Subject = "a pattern out of range for an entry that is no pattern";
const PADDING_SOUGHT: Subject = "padding bits in the row of a key";
const PADDING_WRITTEN: Subject = "padding bits in the row of a written pattern";
const FALSE_THEN_TRUE: Subject = "a false set before one that holds the key";
const TRUE_THEN_FALSE: Subject = "a false set after one that holds the key";
const TWICE_IN_LINE: Subject = "a first indicated set that holds the key twice";
const BIT_MISSING: Subject = "an entry replaced whose bit is 0";
const BIT_TOO_MANY: Subject = "a pattern written whose bit is 1 though the set lacks it";

pub const OF_SINGLE_CALLS: &[Subject] = &[
    STORE_LENGTH,
    INDICATORS_LENGTH,
    MATCH_LENGTH,
    MATCH_LENGTH_AND_KEY,
    ADDRESS_AND_PATTERN,
    PATTERN_AND_ENTRY,
    PADDING_SOUGHT,
    PADDING_WRITTEN,
    FALSE_THEN_TRUE,
    TRUE_THEN_FALSE,
    TWICE_IN_LINE,
    BIT_MISSING,
    BIT_TOO_MANY,
];

/// What a call of a history meets, from the array before it and the answer.
pub fn of_history(before: &Array, call: &Call, answer: &Answer) -> Vec<Subject> {
    let (g, entries) = (&before.geometry(), before.entries());
    let mut met = of_any_set(g, entries, call, answer);
    met.extend(short_subjects::of_history(g, entries, call, answer));
    met
}

/// The same but for those of a short last set.
fn of_any_set(g: &Geometry, entries: &[Option<u32>], call: &Call, answer: &Answer) -> Vec<Subject> {
    let mut met = Vec::new();
    let mut add = |subject, is_met: bool| met.extend(is_met.then_some(subject));
    match (call, answer) {
        (Call::Clear, _) => {
            add(CLEARED_LATER, entries.iter().any(Option::is_some));
            let widest = g.pattern_width == limits(g).0;
            add(LARGEST, g.depth == 4096 && widest);
        }
        (&Call::Write { address, pattern }, &Answer::Entry(previous)) => {
            add(ZERO_WRITTEN, pattern == 0);
            if let Some(q) = previous {
                add(overwriting(g, entries, address, pattern, q), true);
            }
        }
        (&Call::Erase { address }, &Answer::Entry(Some(q))) => {
            add(SHARED_ERASED, neighbour_holds(g, entries, address, q));
        }
        (&Call::FirstMatch { key }, &Answer::At { address, .. }) => {
            let (set, place) = (g.set_of(address), address % g.set_width);
            add(LATER_WORD, set >= 64);
            add(LATER_PLACE, place > 0);
            add(EARLIER_PLACE, address + 1 < g.addresses_of(set).end);
            add(HELD_AGAIN, neighbour_holds(g, entries, address, key));
        }
        (&Call::FirstMatch { key }, Answer::NoMatch { .. }) => {
            met.extend(of_missed(g, entries, key));
        }
        (&Call::NextMatch { address, key }, &Answer::Next(next)) => {
            met.extend(next_subjects::of_history(g, entries, (address, key), next));
        }
        (_, Answer::Matches { matches, .. }) => {
            let words = matches.iter().filter(|&&word| word != 0);
            add(WORDS_OF_HITS, words.count() > 1);
        }
        _ => {}
    }
    met
}

/// Of a key that no address has.
fn of_missed(g: &Geometry, entries: &[Option<u32>], key: u32) -> Vec<Subject> {
    let mixed = g.stages() > 1 && stages_are_stored(g, entries, key);
    let mut met = those(&[
        (key == 0 && entries.contains(&None), ZERO_MISSED),
        (mixed, STAGES_MIXED),
    ]);
    if g.kind == CASCADED {
        let others = entries.iter().flatten();
        met.extend(others.filter_map(|&p| other_box(g, p, key)));
    }
    met
}

fn overwriting(g: &Geometry, entries: &[Option<u32>], a: u32, p: u32, q: u32) -> Subject {
    let shares = |stage| g.stage_value(p, stage) == g.stage_value(q, stage);
    if p == q {
        OVER_ITSELF
    } else if (0..g.stages()).any(shares) {
        STAGE_KEPT
    } else if neighbour_holds(g, entries, a, q) {
        SHARED_OVERWRITTEN
    } else {
        ALONE_OVERWRITTEN
    }
}

pub fn neighbour_holds(g: &Geometry, entries: &[Option<u32>], a: u32, q: u32) -> bool {
    g.addresses_of(g.set_of(a))
        .any(|other| other != a && entries[other as usize] == Some(q))
}

fn stages_are_stored(g: &Geometry, entries: &[Option<u32>], key: u32) -> bool {
    (0..g.stages()).all(|stage| {
        let sought = g.stage_value(key, stage);
        let mut patterns = entries.iter().flatten();
        patterns.any(|&p| g.stage_value(p, stage) == sought)
    })
}

/// The box of rule 4.5 in which alone two patterns of kind 1 differ, if there is only one.
fn other_box(g: &Geometry, p: u32, key: u32) -> Option<Subject> {
    let differs = |&stage: &u32| g.stage_value(p, stage) != g.stage_value(key, stage);
    let mut differing = (0..g.stages()).filter(differs);
    match (differing.next(), differing.next()) {
        (Some(stage), None) if 9 * stage + 9 > g.pattern_width => Some(OTHER_NARROW_LAST),
        (Some(0), None) => Some(OTHER_LOW_NINE),
        (Some(1), None) => Some(OTHER_MIDDLE_NINE),
        (Some(2), None) => Some(OTHER_TOP_NINE),
        _ => None,
    }
}

/// What a single call meets, from the tables before it and the answer.
pub fn of_step(g: &Geometry, tables: &Tables, call: &Call, answer: &Answer) -> Vec<Subject> {
    match answer {
        Answer::Refused(1) => alone(broken_rules(g)),
        Answer::Refused(2) => alone(wrong_lengths(g, tables, call)),
        _ => {
            let mut met = of_call(g, tables, call, answer);
            met.extend(short_subjects::of_step(g, tables, call, answer));
            met
        }
    }
}

/// What a call meets on tables of the right lengths.
fn of_call(g: &Geometry, tables: &Tables, call: &Call, answer: &Answer) -> Vec<Subject> {
    match *call {
        Call::Write { address, pattern } => of_write(g, tables, address, pattern, answer),
        Call::Erase { address } => of_replaced(g, tables, address, answer),
        Call::FirstMatch { key } | Call::AllMatch { key, .. } => of_match(g, tables, key),
        Call::NextMatch { address, key } => {
            next_subjects::of_step(g, tables, (address, key), answer)
        }
        _ => Vec::new(),
    }
}

fn wrong_lengths(g: &Geometry, tables: &Tables, call: &Call) -> Vec<Subject> {
    let mut wrong = Vec::new();
    if tables.store.len() != g.depth as usize {
        wrong.push(STORE_LENGTH);
    }
    if tables.indicators.len() != g.indicator_words() {
        wrong.push(INDICATORS_LENGTH);
    }
    let too_wide = call.pattern().is_some_and(|p| p >= g.patterns());
    if let Call::AllMatch { lent, .. } = call {
        match (lent.len() != g.match_words(), too_wide) {
            (true, true) => wrong.push(MATCH_LENGTH_AND_KEY),
            (true, false) => wrong.push(MATCH_LENGTH),
            _ => {}
        }
    }
    wrong
}

fn of_write(g: &Geometry, tables: &Tables, a: u32, p: u32, answer: &Answer) -> Vec<Subject> {
    let mut met = of_replaced(g, tables, a, answer);
    match answer {
        Answer::Refused(3) if p >= g.patterns() => met.push(ADDRESS_AND_PATTERN),
        Answer::Refused(4) => {
            let entry = tables.store[a as usize];
            if entry != EMPTY && entry >= g.patterns() {
                met.push(PATTERN_AND_ENTRY);
            }
        }
        Answer::Entry(_) => {
            let set = g.set_of(a);
            if padding_in_row(g, tables, p) {
                met.push(PADDING_WRITTEN);
            }
            if in_every_row(g, &tables.indicators, p, set) && !set_holds(g, tables, set, p) {
                met.push(BIT_TOO_MANY);
            }
        }
        _ => {}
    }
    met
}

fn of_replaced(g: &Geometry, tables: &Tables, a: u32, answer: &Answer) -> Vec<Subject> {
    match *answer {
        Answer::Entry(Some(q)) if !in_every_row(g, &tables.indicators, q, g.set_of(a)) => {
            vec![BIT_MISSING]
        }
        _ => Vec::new(),
    }
}

fn of_match(g: &Geometry, tables: &Tables, key: u32) -> Vec<Subject> {
    let mut met = Vec::new();
    if key >= g.patterns() {
        return met;
    }
    if padding_in_row(g, tables, key) {
        met.push(PADDING_SOUGHT);
    }
    if g.kind == SEGMENTED {
        let indicated: Vec<usize> = (0..g.sets())
            .filter(|&set| in_every_row(g, &tables.indicators, key, set))
            .map(|set| holders(g, tables, set, key))
            .collect();
        if let Some(&first) = indicated.first() {
            if first > 1 {
                met.push(TWICE_IN_LINE);
            }
            if indicated.iter().any(|&other| (other > 0) != (first > 0)) {
                met.push(if first > 0 {
                    TRUE_THEN_FALSE
                } else {
                    FALSE_THEN_TRUE
                });
            }
        }
    }
    met
}

fn set_holds(g: &Geometry, tables: &Tables, set: usize, p: u32) -> bool {
    holders(g, tables, set, p) > 0
}

/// How many addresses of a set have the pattern.
pub fn holders(g: &Geometry, tables: &Tables, set: usize, p: u32) -> usize {
    g.addresses_of(set)
        .filter(|&address| tables.store[address as usize] == p)
        .count()
}

/// In kind 1 padding bits matter where they stand in the rows of all stages.
pub fn padding_in_row(g: &Geometry, tables: &Tables, p: u32) -> bool {
    (g.sets()..64 * g.row_words()).any(|bit| in_every_row(g, &tables.indicators, p, bit))
}
