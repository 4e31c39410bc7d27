//! Written-out resumes, of tables that some array has and of others. Their names say what the
//! tables hold, as section 15 of docs/MEMORY.md does: all else is empty, or 0.

use crate::binary::{image, lines, Tables};
use crate::geometry::{geometry, Geometry, CASCADED, SEGMENTED, TRANSPOSED};
use crate::resume::{Answer, Call, Resume};
use crate::script;
use crate::tables::{EMPTY, INDICATORS, STORE};

type Script = script::Script<Resume>;
type Line = script::Line<Resume>;

/// An address and the word that the store has there.
type Entry = (usize, u32);

/// A word of the indicators, its number first.
type Bits = (usize, u64);

/// The geometries of section 15.
const S: Geometry = geometry(SEGMENTED, 8, 2, 2);
const K: Geometry = geometry(CASCADED, 2, 10, 1);

const ZEROS: [Entry; 8] = [
    (0, 0),
    (1, 0),
    (2, 0),
    (3, 0),
    (4, 0),
    (5, 0),
    (6, 0),
    (7, 0),
];

pub fn cases() -> Vec<Script> {
    let mut cases = taken_over();
    cases.extend(wrong_bits());
    cases.extend(wrong_entries());
    cases.extend(wrong_stages());
    cases.extend(short_sets());
    cases.extend(earlier_refusals());
    cases.extend(largest());
    cases
}

fn on(
    name: &'static str,
    geometry: Geometry,
    lengths: (usize, usize),
    words: (&[Entry], &[Bits]),
    lines: Vec<Line>,
) -> Script {
    let mut before = Tables {
        store: STORE.table(&vec![EMPTY; lengths.0]),
        indicators: INDICATORS.table(&vec![0; lengths.1]),
    };
    for &(address, word) in words.0 {
        before.store[address] = word;
    }
    for &(number, bits) in words.1 {
        before.indicators[number] = bits;
    }
    Script {
        name,
        geometry,
        before,
        lines,
    }
}

fn on_s(name: &'static str, store: &[Entry], indicators: &[Bits], lines: Vec<Line>) -> Script {
    on(name, S, (8, 4), (store, indicators), lines)
}

fn on_k(name: &'static str, store: &[Entry], indicators: &[Bits], lines: Vec<Line>) -> Script {
    on(name, K, (2, 514), (store, indicators), lines)
}

fn not_on_s(name: &'static str, store: &[Entry], indicators: &[Bits]) -> Script {
    on_s(name, store, indicators, vec![refused(10)])
}

fn not_on_k(name: &'static str, store: &[Entry], indicators: &[Bits]) -> Script {
    on_k(name, store, indicators, vec![refused(10)])
}

fn resumed() -> Line {
    Line::Call(Call::Resume, Answer::Resumed)
}

fn refused(number: u32) -> Line {
    Line::Call(Call::Resume, Answer::Refused(number))
}

/// A line of the seven calls.
fn seven(line: lines::Line) -> Line {
    match line {
        lines::Line::Call(call, right) => Line::Call(Call::Seven(call), Answer::Seven(right)),
        lines::Line::Look(_) => unreachable!("it is a call"),
    }
}

/// Tables that some history left, and calls that go on from there (rules 10.6 and 10.7).
fn taken_over() -> Vec<Script> {
    let empty = vec![resumed(), seven(lines::none(0, 1, 0))];
    let p3 = vec![
        resumed(),
        seven(lines::at(1, 2, 1, 2)),
        seven(lines::write(3, 1, Some(2))),
        resumed(),
        seven(lines::erase(2, Some(1))),
        seven(lines::at(1, 3, 1, 2)),
        seven(lines::none(2, 1, 0)),
        resumed(),
    ];
    let p6 = vec![
        resumed(),
        seven(lines::none(513, 1, 0)),
        seven(lines::at(514, 1, 1, 0)),
    ];
    let of_p6 = [(1, 1), (2, 2), (512, 1), (513, 2)];
    vec![
        on_s("resume of S", &[], &[], empty),
        on_s("resume of P3", &[(2, 1), (3, 2)], &[(1, 2), (2, 2)], p3),
        on_k("resume of P6", &[(0, 1), (1, 514)], &of_p6, p6),
        on_s(
            "resume of S, full of 0, word 0 is 15",
            &ZEROS,
            &[(0, 15)],
            vec![resumed()],
        ),
    ]
}

/// Padding bits, the first and the last; a bit too many, as in P10, and one too few; the bit of
/// another set and of another pattern; zeros, which nobody has cleared.
fn wrong_bits() -> Vec<Script> {
    let held = [(2, 1)];
    vec![
        not_on_s("resume of S, word 0 is 16", &[], &[(0, 16)]),
        not_on_s("resume of S, word 3 is 2^63", &[], &[(3, 1 << 63)]),
        not_on_s("resume of S, word 1 is 2", &[], &[(1, 2)]),
        not_on_s("resume of S, 2: 1", &held, &[]),
        not_on_s("resume of S, 2: 1, word 1 is 4", &held, &[(1, 4)]),
        not_on_s("resume of S, 2: 1, word 2 is 2", &held, &[(2, 2)]),
        not_on_s("resume of S, full of 0", &ZEROS, &[]),
    ]
}

/// Refused with 10, and not with 5 (rule 9.3).
fn wrong_entries() -> Vec<Script> {
    vec![
        not_on_s("resume of S, 0: 4", &[(0, 4)], &[]),
        not_on_s("resume of S, 7: 4,294,967,294", &[(7, EMPTY - 1)], &[]),
    ]
}

/// Each stage has a bit of its own, and no more than one.
fn wrong_stages() -> Vec<Script> {
    let held = [(0, 1)];
    let (first, both) = ([(1, 1)], [(1, 1), (513, 1)]);
    let three = [(1, 1), (512, 1), (513, 1)];
    vec![
        not_on_k("resume of K, 0: 1, word 1 is 1", &held, &first),
        not_on_k("resume of K, 0: 1, word 512 is 1", &held, &[(512, 1)]),
        not_on_k("resume of K, 0: 1, words 1 and 513 are 1", &held, &both),
        not_on_k("resume of K, 0: 1, words 1, 512, 513 are 1", &held, &three),
    ]
}

/// The last set is address 4 alone: its bit in the row of 3 is bit 2 of word 3.
fn short_sets() -> Vec<Script> {
    let on_t = |name, store: &[Entry], indicators: &[Bits], lines| {
        let g = geometry(SEGMENTED, 5, 2, 2);
        on(name, g, (5, 4), (store, indicators), lines)
    };
    let refuses = || vec![refused(10)];
    let held = [(4, 3)];
    let taken_over = vec![
        resumed(),
        seven(lines::at(3, 4, 1, 1)),
        seven(lines::next(3, 1, Some(4))),
        seven(lines::erase(4, Some(3))),
        seven(lines::none(3, 1, 0)),
        resumed(),
    ];
    vec![
        on_t("resume of D 5, W 2", &held, &[(3, 4)], taken_over),
        on_t("resume of D 5, W 2, no bit", &held, &[], refuses()),
        on_t("resume of D 5, W 2, no entry", &[], &[(3, 4)], refuses()),
        on_t("resume of D 5, W 2, padding", &held, &[(3, 12)], refuses()),
        on_t("resume of D 5, W 2, 4: 4", &[(4, 4)], &[], refuses()),
    ]
}

/// What is wrong with the tables comes last (rule 9.3).
fn earlier_refusals() -> Vec<Script> {
    let (none, bad): (&[Entry], &[Entry]) = (&[], &[(0, 4)]);
    let wide_sets = geometry(CASCADED, 2, 10, 2);
    let (too_wide, sets_65) = (geometry(SEGMENTED, 5, 2, 6), geometry(SEGMENTED, 129, 1, 2));
    let refusal = |name, g, lengths, store, number| {
        let words: (&[Entry], &[Bits]) = (store, &[]);
        on(name, g, lengths, words, vec![refused(number)])
    };
    vec![
        refusal("resume of S, no words", S, (0, 0), none, 2),
        refusal("resume of S, 7 entries, 0: 4", S, (7, 4), bad, 2),
        refusal("resume of S, 5 words, 0: 4", S, (8, 5), bad, 2),
        refusal("resume of K with W 2", wide_sets, (2, 514), none, 1),
        refusal("resume of K with W 2, 5 words", wide_sets, (2, 5), none, 1),
        refusal("resume of D 5, W 6", too_wide, (5, 4), none, 1),
        refusal("resume of D 129, W 2, 2 words", sets_65, (129, 2), none, 2),
    ]
}

/// The largest tables, with an entry at every address; then the last bit of all is wrong.
fn largest() -> Vec<Script> {
    let full = |name, g: Geometry| {
        let entries = (0..g.depth).map(|address| Some(address * 32_767 % g.patterns()));
        let entries: Vec<Option<u32>> = entries.collect();
        let flip = Line::look(move |memory| {
            memory.tables.indicators[g.indicator_words() - 1] ^= 1 << 63;
            Ok(())
        });
        Script {
            name,
            geometry: g,
            before: image::tables(&g, &entries),
            lines: vec![resumed(), flip, refused(10)],
        }
    };
    vec![
        full("resume, D 4,096, kind 0", geometry(TRANSPOSED, 4096, 12, 1)),
        full("resume, D 4,096, kind 1", geometry(CASCADED, 4096, 27, 1)),
        full("resume, D 4,096, kind 2", geometry(SEGMENTED, 4096, 12, 1)),
        full("resume, D 4,096, W 64", geometry(SEGMENTED, 4096, 12, 64)),
        full("resume, D 4,096, W 63", geometry(SEGMENTED, 4096, 12, 63)),
    ]
}
