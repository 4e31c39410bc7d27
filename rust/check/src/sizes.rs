//! The lengths that the library gives for a geometry, against those of the second writing; and the
//! wrapper's memory that has tables of its own, new or taken over, against the calls that are lent
//! theirs.

use crate::binary::call::Call as SevenCalls;
use crate::binary::library::{is_no_refusal, walk, wrapped};
use crate::binary::Tables;
use crate::family::{AnyAnswer, AnyCall, Family};
use crate::generate::{random_history, random_single_call};
use crate::geometry::{geometry, Geometry};
use crate::note::note;
use crate::options::Options;
use crate::parts::{Counts, SHOWN_FAILURES};
use crate::random::Random;
use crate::resume::{library, Call, Resume};
use crate::tables::{marked, MATCH_WORD};
use crate::trial::Trial;
use crate::watch::Death;
use cam::{raw, Refusal};

/// How many owned memories there are, and what keeps their generator apart.
const MEMORIES: u64 = 1500;
const NUMBER: u64 = 4;

/// Numbers past the small ones, around where a row gets another word and where a rule ends.
const KINDS: [u32; 1] = [u32::MAX];
const DEPTHS: [u32; 12] = [
    191,
    192,
    193,
    1000,
    1024,
    1025,
    4032,
    4033,
    4095,
    4096,
    4097,
    u32::MAX,
];
const PATTERN_WIDTHS: [u32; 4] = [31, 32, 64, u32::MAX];
const SET_WIDTHS: [u32; 4] = [96, 128, 4096, u32::MAX];

/// Lengths that are wrong would make memories of any size: those are then not tried.
pub fn run(options: &Options) -> Counts {
    let mut counts = lengths();
    match counts.failed {
        0 => counts.add(owned(options)),
        _ => println!("owned memories: not tried, as their lengths are wrong"),
    }
    counts
}

/// One function that gives a length, through both layers of the wrapper, and what is right.
struct Length {
    name: &'static str,
    raw: fn(cam::Geometry) -> u64,
    typed: fn(cam::Geometry) -> Result<usize, Refusal>,
    right: fn(&Geometry) -> usize,
}

const LENGTHS: [Length; 2] = [
    Length {
        name: "cam_indicator_words",
        raw: raw::indicator_words,
        typed: cam::Geometry::indicator_words,
        right: Geometry::indicator_words,
    },
    Length {
        name: "cam_match_words",
        raw: raw::match_words,
        typed: cam::Geometry::match_words,
        right: Geometry::match_words,
    },
];

/// Each of the two functions counts one, whatever the number of geometries.
fn lengths() -> Counts {
    let geometries = geometries();
    let mut counts = Counts::default();
    for length in LENGTHS {
        let wrong = geometries.iter().find_map(|g| length.judge(g).err());
        counts.count(wrong.is_none());
        if let Some(what) = wrong {
            println!("FAILED, {}\n    {what}", length.name);
        }
    }
    println!("lengths of {} geometries: {counts}", geometries.len());
    counts
}

impl Length {
    fn judge(&self, g: &Geometry) -> Result<(), String> {
        let right = g.is_valid().then(|| (self.right)(g));
        let code = right.map_or(1, |words| 256 + words as u64);
        let given = (self.raw)(wrapped(g));
        if given != code {
            return Err(format!("{g} gave {given}; right is {code}"));
        }
        let typed = (self.typed)(wrapped(g));
        match typed == right.ok_or(Refusal::Geometry) {
            true => Ok(()),
            false => Err(format!("{g}: the wrapper makes {typed:?} of {code}")),
        }
    }
}

/// Every mixture of small numbers and those above, most of which are no geometry.
fn geometries() -> Vec<Geometry> {
    let numbers = |most: u32, others: &[u32]| -> Vec<u32> {
        (0..=most).chain(others.iter().copied()).collect()
    };
    let (kinds, depths) = (numbers(3, &KINDS), numbers(130, &DEPTHS));
    let (patterns, sets) = (numbers(28, &PATTERN_WIDTHS), numbers(66, &SET_WIDTHS));
    let mut geometries = Vec::new();
    for &kind in &kinds {
        for &depth in &depths {
            for &pattern in &patterns {
                geometries.extend(sets.iter().map(|&set| geometry(kind, depth, pattern, set)));
            }
        }
    }
    geometries
}

fn owned(options: &Options) -> Counts {
    let mut counts = Counts::default();
    for index in 0..MEMORIES {
        if options.trace {
            println!("owned memory {index}");
        }
        let trial = trial(options, index);
        note().begin_trial(NUMBER, index);
        let outcome = judge(&trial);
        if let (Err(what), true) = (&outcome, counts.failed < SHOWN_FAILURES) {
            println!("FAILED, owned memory {index}: {trial}\n    {what}");
        }
        counts.count(outcome.is_ok());
    }
    println!("owned memories: {counts} (seed {})", options.seed);
    counts
}

/// Two histories, and then a resume of any tables, most of which no memory goes on with.
fn trial(options: &Options, index: u64) -> Trial<Resume> {
    let random = &mut Random::of_trial(options.seed, NUMBER, index);
    match index % 3 {
        2 => random_single_call(random),
        _ => random_history(random),
    }
}

/// Prints where the core died, if not in a part that says it itself.
pub fn show_death(options: &Options, death: &Death) {
    let index = death.place.index;
    match death.place.part {
        NUMBER => println!("FAILED, owned memory {index}: {}", trial(options, index)),
        _ => println!("FAILED, a length"),
    }
    println!("    {}", death.text(None));
}

/// A memory begins as the first call leaves lent tables, or is refused as that is, and each call
/// gives and leaves the same on both. What is right the other parts say: here a wrong core and a
/// right one do the same.
fn judge(trial: &Trial<Resume>) -> Result<(), String> {
    let g = &trial.geometry;
    let mut tables = trial.before.clone();
    let Some(mut memory) = begun(trial, &mut tables)? else {
        return Ok(());
    };
    same_tables(&memory, &tables).map_err(|what| format!("at the beginning: {what}"))?;
    for call in &trial.calls {
        let mut call = with_own_match_word(g, call);
        let lent = Resume::raw(g, &mut tables, &mut call);
        if is_no_refusal(lent) {
            return Ok(());
        }
        let owned = library::owned(&mut memory, &call).code();
        if owned != lent {
            let (given, right) = (call.describe(owned), call.describe(lent));
            return Err(format!("{call} gave: {given}; lent tables give: {right}"));
        }
        same_matches(g, &memory, &tables, &call).map_err(|what| format!("{call}: {what}"))?;
        same_tables(&memory, &tables).map_err(|what| format!("after {call}: {what}"))?;
    }
    Ok(())
}

/// The memory that the first call begins, a new one or one that goes on with the tables; none where
/// that call is refused. On the lent tables it is made too.
fn begun(trial: &Trial<Resume>, tables: &mut Tables) -> Result<Option<cam::Memory>, String> {
    let (g, first) = (wrapped(&trial.geometry), &trial.calls[0]);
    let lent = Resume::raw(&trial.geometry, tables, &mut first.clone());
    if is_no_refusal(lent) || lent > 256 {
        return Ok(None);
    }
    let (store, indicators) = (&trial.before.store, &trial.before.indicators);
    let memory = match first {
        Call::Resume => cam::Memory::resumed(g, store.to_vec(), indicators.to_vec()),
        // A new memory clears other tables, which the core may take otherwise.
        Call::Seven(_) if lent < 256 => return Ok(None),
        Call::Seven(_) => cam::Memory::new(g),
    };
    let given = memory.as_ref().map_or_else(|why| why.number(), |_| 256);
    match u64::from(given) == lent {
        true => Ok(memory.ok()),
        false => {
            let (given, right) = (first.describe(given.into()), first.describe(lent));
            Err(format!("{first} makes: {given}; lent tables give: {right}"))
        }
    }
}

/// A memory lends a match word of the right length.
fn with_own_match_word(g: &Geometry, call: &Call) -> Call {
    match *call {
        Call::Seven(SevenCalls::AllMatch { key, .. }) => Call::Seven(SevenCalls::AllMatch {
            key,
            lent: MATCH_WORD.table(&vec![0; g.match_words()]),
        }),
        _ => call.clone(),
    }
}

/// Of an all-match, whose match word was left by the lent call: the words, and the addresses whose
/// bits are 1, which a walk finds too, if it does on the lent tables.
fn same_matches(
    g: &Geometry,
    memory: &cam::Memory,
    tables: &Tables,
    call: &Call,
) -> Result<(), String> {
    let Call::Seven(SevenCalls::AllMatch { key, lent }) = call else {
        return Ok(());
    };
    let Ok(found) = memory.all_match(*key) else {
        return Ok(());
    };
    let addresses = marked(lent);
    if found.words != lent[..] || !found.addresses().eq(addresses.iter().copied()) {
        return Err("the match word or its addresses are not the lent one's".to_string());
    }
    let lent_walks = walk(g, tables, *key, &addresses).is_ok();
    match lent_walks && !memory.places(*key).eq(addresses.into_iter().map(Ok)) {
        true => Err("a walk does not go as on the lent tables".to_string()),
        false => Ok(()),
    }
}

fn same_tables(memory: &cam::Memory, lent: &Tables) -> Result<(), String> {
    match (memory.store(), memory.indicators()) == (&lent.store[..], &lent.indicators[..]) {
        true => Ok(()),
        false => Err("the tables are not as the lent ones".to_string()),
    }
}
