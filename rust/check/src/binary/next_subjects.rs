//! The troubles that the random next-matches are made to meet, by name, and how each is recognised.

use crate::binary::answer::Answer;
use crate::binary::generate::EDGES;
use crate::binary::subjects::{holders, padding_in_row};
use crate::binary::Tables;
use crate::geometry::{Geometry, SEGMENTED};
use crate::subjects::{in_each_kind, those, InEachKind, Subject};
use crate::tables::{in_every_row, EMPTY};

const SAME_SET: Subject = "a next match in the same set";
const SAME_WORD: Subject = "a next match in a later set of the same row word";
const LATER_WORD: Subject = "a next match in a later row word";
const HELD_HERE: Subject = "no next match of a key that the address itself has";
const ABOVE_LAST: Subject = "a next-match above the last address";

pub const OF_HISTORIES: &[Subject] = &[SAME_SET, SAME_WORD, LATER_WORD, HELD_HERE, ABOVE_LAST];

const OWN_INDICATED: Subject = "a next match in its own set, which is indicated";
const OWN_NOT_INDICATED: Subject = "a next match in its own set, which is not indicated";
const OWN_BEFORE_FALSE: Subject = "a next match in its own set, before a false set";
const ONLY_AT: Subject = "a next-match whose own set has the key at the address alone";
const ONLY_BELOW: Subject = "a next-match whose own set has the key below the address alone";
const FALSE_NEXT: Subject = "a next-match that comes to a false set";
const TRUE_BEHIND_FALSE: Subject = "a next-match that comes to a false set before a true one";
const OWN_THEN_TRUE: Subject = "a next match past its own indicated set, which has it no more";
const OWN_ALONE: Subject = "no next match, though its own set, which has it no more, is indicated";
const NO_PATTERN: InEachKind = in_each_kind!("a next-match above an entry that is no pattern");
const ADDRESS_AND_KEY: Subject = "a next-match with address and key both out of range";
const STORE_UNLIKE: Subject = "kind 0 or 1, a next match where the store has another entry";
const PADDING: InEachKind = in_each_kind!("no next match, though the key's row has padding bits");
const AT_63: InEachKind = in_each_kind!("a next match in set 63");
const AT_64: InEachKind = in_each_kind!("a next match in set 64");
const AT_127: InEachKind = in_each_kind!("a next match in set 127");
const AT_128: InEachKind = in_each_kind!("a next match in set 128");
const PAST_WORD: InEachKind = in_each_kind!("a next match past a whole row word");
const FROM_63: InEachKind =
    in_each_kind!("a next match above set 63, whose word has indicated sets");
const FROM_127: InEachKind = in_each_kind!("a next match above set 127, whose word has such sets");
const LAST: InEachKind =
    in_each_kind!("a next-match above the last address, whose set is indicated");
const LAST_FULL: InEachKind =
    in_each_kind!("a next-match above the last address, no row has padding");

pub const OF_SINGLE_CALLS: &[Subject] = &[
    OWN_INDICATED,
    OWN_NOT_INDICATED,
    OWN_BEFORE_FALSE,
    ONLY_AT,
    ONLY_BELOW,
    FALSE_NEXT,
    TRUE_BEHIND_FALSE,
    OWN_THEN_TRUE,
    OWN_ALONE,
    ADDRESS_AND_KEY,
    STORE_UNLIKE,
];

pub const IN_EACH_KIND: &[Subject] = BY_KIND.as_flattened();

const BY_KIND: &[InEachKind] = &[
    NO_PATTERN, PADDING, AT_63, AT_64, AT_127, AT_128, PAST_WORD, FROM_63, FROM_127, LAST,
    LAST_FULL,
];

/// The subjects of a set at an edge, in the order of the edges.
const FOUND_AT: [InEachKind; EDGES.len()] = [AT_63, AT_64, AT_127, AT_128];

/// The address and the key of a next-match.
type Given = (u32, u32);

/// What an accepted next-match of a history meets, from the entries and the address that it gives.
pub fn of_history(
    g: &Geometry,
    entries: &[Option<u32>],
    (address, key): Given,
    next: Option<u32>,
) -> Vec<Subject> {
    let own = g.set_of(address);
    let set = next.map(|next| g.set_of(next));
    let later = set.filter(|&set| set > own);
    those(&[
        (set == Some(own), SAME_SET),
        (later.is_some_and(|set| set / 64 == own / 64), SAME_WORD),
        (later.is_some_and(|set| set / 64 > own / 64), LATER_WORD),
        (
            next.is_none() && entries[address as usize] == Some(key),
            HELD_HERE,
        ),
        (address + 1 == g.depth, ABOVE_LAST),
    ])
}

/// What a next-match meets on tables of the right lengths.
pub fn of_step(g: &Geometry, tables: &Tables, given: Given, answer: &Answer) -> Vec<Subject> {
    match *answer {
        Answer::Refused(3) => those(&[(given.1 >= g.patterns(), ADDRESS_AND_KEY)]),
        Answer::Refused(6) => of_false_set(g, tables, given),
        Answer::Next(next) => {
            let mut met = of_accepted(g, tables, given, next);
            met.extend(of_words(g, tables, given, next));
            if g.kind == SEGMENTED {
                met.extend(of_own_set(g, tables, given, next));
            }
            met
        }
        _ => Vec::new(),
    }
}

/// The indicated sets after that of the address.
fn later_sets<'a>(
    g: &'a Geometry,
    tables: &'a Tables,
    (address, key): Given,
) -> impl Iterator<Item = usize> + 'a {
    let later = g.set_of(address) + 1..g.sets();
    later.filter(move |&set| in_every_row(g, &tables.indicators, key, set))
}

fn of_false_set(g: &Geometry, tables: &Tables, given: Given) -> Vec<Subject> {
    let mut behind = later_sets(g, tables, given).skip(1);
    let is_true = behind.any(|set| holders(g, tables, set, given.1) > 0);
    those(&[(true, FALSE_NEXT), (is_true, TRUE_BEHIND_FALSE)])
}

fn of_accepted(
    g: &Geometry,
    tables: &Tables,
    (address, key): Given,
    next: Option<u32>,
) -> Vec<Subject> {
    let (kind, own) = (g.kind as usize, g.set_of(address));
    let entry = tables.store[address as usize];
    let no_pattern = entry != EMPTY && entry >= g.patterns();
    let unlike = next.is_some_and(|next| tables.store[next as usize] != key);
    let last = address + 1 == g.depth;
    let indicated = in_every_row(g, &tables.indicators, key, own);
    let padding = padding_in_row(g, tables, key);
    those(&[
        (no_pattern, NO_PATTERN[kind]),
        (unlike, STORE_UNLIKE),
        (next.is_none() && padding, PADDING[kind]),
        (last && indicated, LAST[kind]),
        (last && g.sets() == 64 * g.row_words(), LAST_FULL[kind]),
    ])
}

/// Where the row words of the own set and of the one that is found end and begin.
fn of_words(
    g: &Geometry,
    tables: &Tables,
    (address, key): Given,
    next: Option<u32>,
) -> Vec<Subject> {
    let (kind, own) = (g.kind as usize, g.set_of(address));
    let Some(found) = next.map(|next| g.set_of(next)).filter(|&set| set > own) else {
        return Vec::new();
    };
    let edges = EDGES.iter().zip(FOUND_AT);
    let mut met: Vec<Subject> = edges
        .filter(|(&edge, _)| edge == found)
        .map(|(_, subjects)| subjects[kind])
        .collect();
    let own_word = own / 64 * 64..own + 1;
    let passed = |end| {
        let mut own_word = own_word.clone();
        own == end && own_word.any(|set| in_every_row(g, &tables.indicators, key, set))
    };
    met.extend(those(&[
        (found / 64 > own / 64 + 1, PAST_WORD[kind]),
        (passed(63), FROM_63[kind]),
        (passed(127), FROM_127[kind]),
    ]));
    met
}

/// Where in its set the address lies, and what else holds the key there.
fn of_own_set(
    g: &Geometry,
    tables: &Tables,
    (address, key): Given,
    next: Option<u32>,
) -> Vec<Subject> {
    let own = g.set_of(address);
    let held = |a: u32| tables.store[a as usize] == key;
    let (at, below) = (
        held(address),
        (g.addresses_of(own).start..address).any(held),
    );
    let above = next.is_some_and(|next| g.set_of(next) == own);
    let indicated = in_every_row(g, &tables.indicators, key, own);
    let later = later_sets(g, tables, (address, key)).next();
    let false_next = later.is_some_and(|set| holders(g, tables, set, key) == 0);
    those(&[
        (above && indicated, OWN_INDICATED),
        (above && !indicated, OWN_NOT_INDICATED),
        (above && false_next, OWN_BEFORE_FALSE),
        (at && !below && !above, ONLY_AT),
        (below && !at && !above, ONLY_BELOW),
        (indicated && !above && next.is_some(), OWN_THEN_TRUE),
        (indicated && next.is_none(), OWN_ALONE),
    ])
}
