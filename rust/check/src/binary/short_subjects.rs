//! The troubles of a last set that is short, and of one that has all addresses, that the random
//! trials of the seven calls are made to meet, by name, and how each is recognised.

use crate::binary::answer::Answer;
use crate::binary::call::Call;
use crate::binary::subjects::{holders, neighbour_holds};
use crate::binary::Tables;
use crate::geometry::Geometry;
use crate::subjects::{those, Subject};
use crate::tables::{in_every_row, marked};

pub const FIRST: Subject = "a first match in a short last set";
pub const FIRST_OF_ONE: Subject = "a first match in a short last set of one address";
const IN_ONE_SET: Subject = "a first match where one set has all of several addresses";
pub const SHARED: Subject = "a pattern taken out of a short last set that still holds it";
const ALONE: Subject = "a pattern taken out of a short last set that holds it no more";
const NEXT_OWN: Subject = "a next match in its own set, which is short";
const NEXT_IN: Subject = "a next match that comes from another set to a short one";
const NO_NEXT: Subject = "no next match above an address of a short last set";
const WALK: Subject = "a walk of several sets that ends in a short one";
pub const WORD_GOES_ON: Subject = "hits in a short last set, bits of no address behind its own";
const WORD_ENDS: Subject = "hits in a short last set that ends with the match word";

pub const OF_HISTORIES: &[Subject] = &[
    FIRST,
    FIRST_OF_ONE,
    IN_ONE_SET,
    SHARED,
    ALONE,
    NEXT_OWN,
    NEXT_IN,
    NO_NEXT,
    WALK,
    WORD_GOES_ON,
    WORD_ENDS,
];

const FALSE_FIRST: Subject = "a first-match that comes to a false set, which is short";
const FALSE_NEXT: Subject = "a next-match that comes to a false set, which is short";
const FALSE_ALL: Subject = "an all-match of which a short last set alone is false";
const PADDING: Subject = "a match with a padding bit beside that of a short last set, which is 1";
const OWN_NOT_INDICATED: Subject = "a next match in its own short set, which is not indicated";
const PADDING_NEXT: Subject =
    "no next match in a short last set, with a padding bit beside its own";

pub const OF_SINGLE_CALLS: &[Subject] = &[
    FALSE_FIRST,
    FALSE_NEXT,
    FALSE_ALL,
    PADDING,
    OWN_NOT_INDICATED,
    PADDING_NEXT,
];

/// What a call of a history meets, from the entries before it and the answer.
pub fn of_history(
    g: &Geometry,
    entries: &[Option<u32>],
    call: &Call,
    answer: &Answer,
) -> Vec<Subject> {
    let is_short = |address: u32| Some(g.set_of(address)) == g.short_set();
    match (call, answer) {
        (_, &Answer::At { address, .. }) => {
            let (short, last) = (is_short(address), address + 1 == g.depth);
            those(&[
                (short, FIRST),
                (short && last && address % g.set_width == 0, FIRST_OF_ONE),
                (g.set_width > 1 && g.set_width == g.depth, IN_ONE_SET),
            ])
        }
        (&Call::Write { address, .. }, &Answer::Entry(Some(q)))
        | (&Call::Erase { address }, &Answer::Entry(Some(q))) => {
            let (short, new) = (is_short(address), call.pattern());
            let shared = neighbour_holds(g, entries, address, q);
            let taken = short && new != Some(q);
            those(&[(taken && shared, SHARED), (taken && !shared, ALONE)])
        }
        (&Call::NextMatch { address, .. }, &Answer::Next(next)) => {
            let own = is_short(address);
            let comes = next.is_some_and(is_short);
            those(&[
                (own && comes, NEXT_OWN),
                (!own && comes, NEXT_IN),
                (own && next.is_none(), NO_NEXT),
            ])
        }
        (_, Answer::Matches { matches, .. }) => of_hits(g, &marked(matches)),
        _ => Vec::new(),
    }
}

/// The walk that is made after it comes to the same addresses (rule 10.8 of docs/MEMORY.md).
fn of_hits(g: &Geometry, hits: &[u32]) -> Vec<Subject> {
    let (Some(first), Some(last)) = (hits.first(), hits.last()) else {
        return Vec::new();
    };
    let short = Some(g.set_of(*last)) == g.short_set();
    let ends = g.depth.is_multiple_of(64);
    those(&[
        (short && g.set_of(*first) != g.set_of(*last), WALK),
        (short && !ends, WORD_GOES_ON),
        (short && ends, WORD_ENDS),
    ])
}

/// What a match meets on tables of the right lengths, its key in range.
pub fn of_step(g: &Geometry, tables: &Tables, call: &Call, answer: &Answer) -> Vec<Subject> {
    let (Some(key), Some(short)) = (call.pattern(), g.short_set()) else {
        return Vec::new();
    };
    if key >= g.patterns() {
        return Vec::new();
    }
    let indicated = |set: usize| in_every_row(g, &tables.indicators, key, set);
    let padding = g.sets() < 64 * g.row_words() && indicated(g.sets());
    let own = call.address().map(|address| g.set_of(address));
    match *answer {
        Answer::Refused(6) => of_false_set(g, tables, call, (short, key)),
        Answer::Next(None) => those(&[(padding && own == Some(short), PADDING_NEXT)]),
        Answer::Next(Some(_)) => {
            let own = own == Some(short);
            those(&[(own && !indicated(short), OWN_NOT_INDICATED)])
        }
        Answer::At { .. } | Answer::Matches { .. } => {
            those(&[(padding && indicated(short), PADDING)])
        }
        _ => Vec::new(),
    }
}

/// The first false set is the last of all: then no other is.
fn of_false_set(
    g: &Geometry,
    tables: &Tables,
    call: &Call,
    (short, key): (usize, u32),
) -> Vec<Subject> {
    let after = call.address().map_or(0, |address| g.set_of(address) + 1);
    let mut indicated = (after..g.sets()).filter(|&s| in_every_row(g, &tables.indicators, key, s));
    let is_first = indicated.clone().next() == Some(short);
    let is_false = |set: usize| holders(g, tables, set, key) == 0;
    let alone = indicated.find(|&set| is_false(set)) == Some(short);
    those(&[
        (
            is_first && matches!(call, Call::FirstMatch { .. }),
            FALSE_FIRST,
        ),
        (
            is_first && matches!(call, Call::NextMatch { .. }),
            FALSE_NEXT,
        ),
        (alone && matches!(call, Call::AllMatch { .. }), FALSE_ALL),
    ])
}
