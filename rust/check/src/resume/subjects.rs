//! The troubles that random resumes are made to meet, by name, and how each is recognised.

use crate::binary::subjects::holders;
use crate::binary::Tables;
use crate::geometry::Geometry;
use crate::lent::{AnyTables, Lent};
use crate::resume::faults::{Bit, Faults};
use crate::resume::step::made_anew;
use crate::resume::Answer;
use crate::subjects::{
    alone, broken_rules, in_each_kind, those, InEachKind, Subject, BROKEN_RULES,
};
use crate::tables::EMPTY;

const NOTHING_HELD: InEachKind = in_each_kind!("accepted, no address holds anything");
const SOME_HELD: InEachKind = in_each_kind!("accepted, some addresses hold something");
const ALL_HELD: InEachKind = in_each_kind!("accepted, every address holds something");
const NO_PADDING: InEachKind = in_each_kind!("accepted, no row has padding");
const HELD_TWICE: Subject = "accepted, a set holds a pattern twice";
const SHORT_HELD: Subject = "accepted, a short last set holds something";
const SHORT_TWICE: Subject = "accepted, a short last set holds a pattern twice";

const PADDING: InEachKind = in_each_kind!("one wrong bit, of the padding");
const STALE: InEachKind = in_each_kind!("one wrong bit, 1 where no entry covers the row");
const MISSING: InEachKind = in_each_kind!("one wrong bit, 0 where an entry covers the row");
const FIRST_PADDING: InEachKind = in_each_kind!("one wrong bit, the first of the padding");
const FIRST_STALE: InEachKind = in_each_kind!("one wrong bit, 1 for the first set");
const FIRST_MISSING: InEachKind = in_each_kind!("one wrong bit, 0 for the first set");
const LAST_STALE: InEachKind = in_each_kind!("one wrong bit, 1 for the last set");
const LAST_MISSING: InEachKind = in_each_kind!("one wrong bit, 0 for the last set");
const BIT_63: InEachKind = in_each_kind!("one wrong bit, bit 63 of its word and of a set");
const FIRST_WORD: InEachKind = in_each_kind!("one wrong bit, in word 0");
const LAST_WORD: InEachKind = in_each_kind!("one wrong bit, in the last word");
const LATER_WORD: InEachKind = in_each_kind!("one wrong bit, past the first word of its row");
const STALE_STAGE: Subject = "one wrong bit, 1 in a later stage than the first";
const MISSING_STAGE: Subject = "one wrong bit, 0 in a later stage than the first";
const SHORT_STALE: Subject = "one wrong bit, 1 for a short last set";
const SHORT_MISSING: Subject = "one wrong bit, 0 for a short last set";
const SHORT_PADDING: Subject = "one wrong bit, of the padding beside that of a short last set";

const NO_PATTERN: InEachKind = in_each_kind!("one wrong entry, no pattern, every bit right");
const OVER_PATTERN: InEachKind = in_each_kind!("one wrong entry, no pattern in place of one");
const ANOTHER: InEachKind = in_each_kind!("one wrong entry, a pattern in place of another");
const GONE: InEachKind = in_each_kind!("one wrong entry, empty in place of a pattern");
const NEW: InEachKind = in_each_kind!("one wrong entry, a pattern in place of empty");
const FIRST_ADDRESS: InEachKind = in_each_kind!("one wrong entry, no pattern at address 0");
const LAST_ADDRESS: InEachKind = in_each_kind!("one wrong entry, no pattern at the last address");

const STORE_LENGTH: Subject = "a store of wrong length, that of the indicators right";
const INDICATORS_LENGTH: Subject = "indicators of wrong length, that of the store right";
const STORE_LONGER: Subject = "a store that is right but for more words after it";
const INDICATORS_LONGER: Subject = "indicators that are right but for more words after them";
const LENGTH_AND_ENTRY: Subject = "a wrong length and an entry that is no pattern";
const GEOMETRY_AND_LENGTH: Subject = "a bad geometry and a store of another length than its depth";
const GEOMETRY_AND_ENTRY: Subject = "a bad geometry and an entry that is no pattern";

const OF_LENGTHS: &[Subject] = &[
    STORE_LENGTH,
    INDICATORS_LENGTH,
    STORE_LONGER,
    INDICATORS_LONGER,
    LENGTH_AND_ENTRY,
    GEOMETRY_AND_LENGTH,
    GEOMETRY_AND_ENTRY,
];

pub const OF_RESUMES: &[&[Subject]] = &[
    BROKEN_RULES,
    OF_LENGTHS,
    &NOTHING_HELD,
    &SOME_HELD,
    &ALL_HELD,
    &NO_PADDING,
    &[HELD_TWICE, SHORT_HELD, SHORT_TWICE],
    &PADDING,
    &STALE,
    &MISSING,
    &FIRST_PADDING,
    &FIRST_STALE,
    &FIRST_MISSING,
    &LAST_STALE,
    &LAST_MISSING,
    &BIT_63,
    &FIRST_WORD,
    &LAST_WORD,
    &LATER_WORD,
    &[STALE_STAGE, MISSING_STAGE],
    &[SHORT_STALE, SHORT_MISSING, SHORT_PADDING],
    &NO_PATTERN,
    &OVER_PATTERN,
    &ANOTHER,
    &GONE,
    &NEW,
    &FIRST_ADDRESS,
    &LAST_ADDRESS,
];

/// What a resume meets, from the tables and the answer.
pub fn of_resume(g: &Geometry, tables: &Tables, answer: &Answer) -> Vec<Subject> {
    match answer {
        Answer::Refused(1) => of_bad_geometry(g, tables),
        Answer::Refused(2) => of_wrong_lengths(g, tables),
        Answer::Resumed => of_accepted(g, tables),
        _ => of_faults(g, tables, &Faults::of(g, tables)),
    }
}

fn of_bad_geometry(g: &Geometry, tables: &Tables) -> Vec<Subject> {
    let length = tables.store.len() != g.depth as usize;
    let mut met = alone(broken_rules(g));
    // No geometry has so large a pattern.
    let entry = tables
        .store
        .iter()
        .any(|&word| word != EMPTY && word >= 1 << 27);
    met.extend(those(&[
        (length, GEOMETRY_AND_LENGTH),
        (entry && !length, GEOMETRY_AND_ENTRY),
    ]));
    met
}

fn of_wrong_lengths(g: &Geometry, tables: &Tables) -> Vec<Subject> {
    let (store_fits, indicators_fit) = (tables.store.fits(g), tables.indicators.fits(g));
    let is_no_pattern = |&word: &u32| word != EMPTY && word >= g.patterns();
    let longer = would_be_right(g, tables);
    those(&[
        (indicators_fit, STORE_LENGTH),
        (store_fits, INDICATORS_LENGTH),
        (indicators_fit && longer, STORE_LONGER),
        (store_fits && longer, INDICATORS_LONGER),
        (tables.store.iter().any(is_no_pattern), LENGTH_AND_ENTRY),
    ])
}

/// Whether nothing is wrong with the tables but that there are words after them.
fn would_be_right(g: &Geometry, tables: &Tables) -> bool {
    let mut cut = tables.clone();
    let long = cut.all_mut().into_iter().all(|table| {
        let right = table.right_length(g);
        let long = table.length() >= right;
        table.resize(right);
        long
    });
    long && cut.compare(g, &made_anew(g, &cut)).is_ok()
}

fn of_accepted(g: &Geometry, tables: &Tables) -> Vec<Subject> {
    let kind = g.kind as usize;
    let held = tables.store.iter().filter(|&&word| word != EMPTY).count();
    let (nothing, all) = (held == 0, held == tables.store.len());
    let holds = |a: u32| tables.store[a as usize] != EMPTY;
    let twice = |a: u32| {
        let word = tables.store[a as usize];
        holds(a) && holders(g, tables, g.set_of(a), word) > 1
    };
    let mut short = g.short_set().map_or(0..0, |set| g.addresses_of(set));
    those(&[
        (nothing, NOTHING_HELD[kind]),
        (!nothing && !all, SOME_HELD[kind]),
        (all, ALL_HELD[kind]),
        (!nothing && g.sets() % 64 == 0, NO_PADDING[kind]),
        ((0..g.depth).any(twice), HELD_TWICE),
        (short.clone().any(holds), SHORT_HELD),
        (short.any(twice), SHORT_TWICE),
    ])
}

fn of_faults(g: &Geometry, tables: &Tables, faults: &Faults) -> Vec<Subject> {
    let mut met = of_one_set(g, tables, faults);
    match (&faults.entries[..], &faults.bits[..]) {
        ([], [bit]) => met.extend(of_one_bit(g, tables, bit)),
        ([address], []) => met.extend(of_one_entry(g, *address)),
        _ => {}
    }
    met
}

fn of_one_bit(g: &Geometry, tables: &Tables, bit: &Bit) -> Vec<Subject> {
    let kind = g.kind as usize;
    let (words, sets) = (tables.indicators.len(), g.sets());
    let padding = bit.place >= sets;
    let (stale, missing) = (bit.is_one && !padding, !bit.is_one);
    let (first, last) = (bit.place == 0, bit.place + 1 == sets);
    let short = g.short_set().is_some();
    those(&[
        (padding, PADDING[kind]),
        (bit.place == sets, FIRST_PADDING[kind]),
        (stale, STALE[kind]),
        (stale && first && sets > 1, FIRST_STALE[kind]),
        (stale && last && sets > 1, LAST_STALE[kind]),
        (stale && bit.stage > 0, STALE_STAGE),
        (missing, MISSING[kind]),
        (missing && first && sets > 1, FIRST_MISSING[kind]),
        (missing && last && sets > 1, LAST_MISSING[kind]),
        (missing && bit.stage > 0, MISSING_STAGE),
        (bit.place % 64 == 63 && !padding, BIT_63[kind]),
        (bit.place >= 64, LATER_WORD[kind]),
        (stale && last && short, SHORT_STALE),
        (missing && last && short, SHORT_MISSING),
        (bit.place == sets && short, SHORT_PADDING),
        (bit.word == 0 && words > 1, FIRST_WORD[kind]),
        (bit.word + 1 == words && words > 1, LAST_WORD[kind]),
    ])
}

fn of_one_entry(g: &Geometry, address: usize) -> Vec<Subject> {
    let kind = g.kind as usize;
    let last = g.depth as usize - 1;
    those(&[
        (address == 0 && last > 0, FIRST_ADDRESS[kind]),
        (address == last && last > 0, LAST_ADDRESS[kind]),
    ])
}

/// What one change of the store makes wrong, in a single set: the bits of the former pattern are
/// then too many, or those of the new one too few, or both.
fn of_one_set(g: &Geometry, tables: &Tables, faults: &Faults) -> Vec<Subject> {
    let kind = g.kind as usize;
    let Some(set) = faults.only_set(g) else {
        return Vec::new();
    };
    let every: Vec<usize> = (0..g.stages() as usize).collect();
    let (stale, missing) = (faults.stages(true), faults.stages(false));
    let has_empty = g
        .addresses_of(set)
        .any(|a| tables.store[a as usize] == EMPTY);
    match (faults.entries.len(), &stale[..], &missing[..]) {
        (1, [], []) => vec![NO_PATTERN[kind]],
        (1, stale, []) if stale == every => vec![OVER_PATTERN[kind]],
        (0, stale, []) if stale == every && has_empty => vec![GONE[kind]],
        (0, [], missing) if missing == every => vec![NEW[kind]],
        (0, stale, missing) if stale == missing && stale.len() <= every.len() => {
            vec![ANOTHER[kind]]
        }
        _ => Vec::new(),
    }
}
