//! The troubles that histories with resumes are made to meet, by name, and how each is recognised.

use crate::binary::answer::Answer as OfTheSeven;
use crate::binary::call::Call as SevenCalls;
use crate::binary::subjects::neighbour_holds;
use crate::resume::course::Course;
use crate::resume::{Answer, Call};
use crate::subjects::{in_each_kind, those, InEachKind, Subject};

const BEGUN_EMPTY: InEachKind = in_each_kind!("a history begun by a resume of empty tables");
const BEGUN_HELD: InEachKind = in_each_kind!("a history begun by a resume of what is held");
const CUT_AFTER_CLEAR: InEachKind = in_each_kind!("a history begun by a clear, cut by a resume");
const CUT_AFTER_RESUME: InEachKind = in_each_kind!("a history begun by a resume, cut by another");
const FOUND: InEachKind = in_each_kind!("an entry found that a resume took over");
const OVERWRITTEN: InEachKind = in_each_kind!("an entry overwritten that a resume took over");
const ERASED: InEachKind = in_each_kind!("an entry erased that a resume took over");
const SHARED: Subject = "an entry overwritten that a resume took over and a neighbour holds too";
const SHORT_FOUND: Subject = "an entry found in a short last set that a resume took over";
const SHORT_ERASED: Subject = "an entry erased in a short last set that a resume took over";

pub const OF_HISTORIES: &[&[Subject]] = &[
    &BEGUN_EMPTY,
    &BEGUN_HELD,
    &CUT_AFTER_CLEAR,
    &CUT_AFTER_RESUME,
    &FOUND,
    &OVERWRITTEN,
    &ERASED,
    &[SHARED, SHORT_FOUND, SHORT_ERASED],
];

/// What a call of a history meets, from its course before it and the answer.
pub fn of_history(before: &Course, call: &Call, answer: &Answer) -> Vec<Subject> {
    match (call, answer) {
        (Call::Resume, _) => of_cut(before),
        (Call::Seven(call), Answer::Seven(answer)) => of_seven(before, call, answer),
        _ => Vec::new(),
    }
}

fn of_cut(before: &Course) -> Vec<Subject> {
    let kind = before.array().geometry().kind as usize;
    let held = before.array().entries().iter().any(Option::is_some);
    let (first, by_resume) = (before.is_fresh(), before.by_resume());
    those(&[
        (first && !held, BEGUN_EMPTY[kind]),
        (first && held, BEGUN_HELD[kind]),
        (!first && held && !by_resume, CUT_AFTER_CLEAR[kind]),
        (!first && held && by_resume, CUT_AFTER_RESUME[kind]),
    ])
}

fn of_seven(before: &Course, call: &SevenCalls, answer: &OfTheSeven) -> Vec<Subject> {
    let (g, entries) = (&before.array().geometry(), before.array().entries());
    let kind = g.kind as usize;
    let taken_over = |address| before.is_taken_over(address);
    let short = |address| taken_over(address) && Some(g.set_of(address)) == g.short_set();
    match (call, answer) {
        (SevenCalls::FirstMatch { .. }, &OfTheSeven::At { address, .. }) => those(&[
            (taken_over(address), FOUND[kind]),
            (short(address), SHORT_FOUND),
        ]),
        (&SevenCalls::Write { address, pattern }, &OfTheSeven::Entry(Some(q))) => {
            let over = taken_over(address) && pattern != q;
            let shared = neighbour_holds(g, entries, address, q);
            those(&[(over, OVERWRITTEN[kind]), (over && shared, SHARED)])
        }
        (&SevenCalls::Erase { address }, OfTheSeven::Entry(Some(_))) => those(&[
            (taken_over(address), ERASED[kind]),
            (short(address), SHORT_ERASED),
        ]),
        _ => Vec::new(),
    }
}
