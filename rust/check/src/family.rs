//! What a family of calls is: its calls and answers, its tables, its steps and its array, the way
//! to the library, its generators and its subjects. A family is a module that implements these
//! traits; how its trials are judged, counted, cut down and printed is written over them, once for
//! all.

use crate::coverage::Required;
use crate::geometry::Geometry;
use crate::lent::{AnyTables, Lent};
use crate::options::Names;
use crate::random::Random;
use crate::subjects::Subject;
use std::fmt::Display;

/// What a number of a call is. Equal numbers of one sort belong together when they are lowered.
pub type Sort = &'static str;

/// Of this sort alone all numbers are lowered by whole sets.
pub const ADDRESS: Sort = "address";

/// A call with all that it is given but the tables, in the notation that is printed.
pub trait AnyCall: Clone + Display {
    fn name(&self) -> &'static str;
    /// The numbers that it is given, to be read or changed.
    fn numbers(&mut self) -> Vec<(Sort, &mut u32)>;
    /// What is lent to this call alone, to be written: a match word.
    fn lent(&self) -> Option<&dyn Lent>;
    fn lent_mut(&mut self) -> Option<&mut dyn Lent>;
    fn writes_tables(&self) -> bool;
    /// What a code says as the answer to this call.
    fn describe(&self, code: u64) -> String;
    fn in_job(&self) -> InJob;
}

/// What a job has in the place of a call.
pub enum InJob {
    /// A command, as a line of a text for `tools/camjob`.
    Command(String),
    /// Nothing, for this reason. The call writes no table, so that the job can go on without it.
    Nothing(&'static str),
    /// There is no job for a history with such a call.
    NoJob,
}

/// The right answer to a call.
pub trait AnyAnswer {
    /// The answer as the exported functions put it into one number.
    fn code(&self) -> u64;
    /// How it is counted.
    fn label(&self) -> &'static str;
    /// What is then in that which is lent to the call alone; `None` where it stays as it was.
    fn left(&self) -> Option<&dyn Lent>;
}

/// Calls on any tables, one at a time. (`Clone` is for trials, which derive it.)
pub trait Family: Clone + 'static {
    type Tables: AnyTables;
    type Call: AnyCall;
    type Answer: AnyAnswer;
    /// The few numbers that the calls of one trial keep coming back to.
    type Pool;

    const SINGLE_CALLS: Names;
    const OF_SINGLE_CALLS: Required;

    /// The answer of the step on any tables, which become those after it.
    fn step(g: &Geometry, tables: &mut Self::Tables, call: &Self::Call) -> Self::Answer;

    /// The library's code, by the layer of the wrapper that gives codes. It writes the tables, and
    /// in the call what is lent to that alone.
    fn raw(g: &Geometry, tables: &mut Self::Tables, call: &mut Self::Call) -> u64;
    /// The same by the layer that gives results.
    fn typed(g: &Geometry, tables: &mut Self::Tables, call: &mut Self::Call) -> Self::Answer;

    /// After a call that found all addresses of a key: a walk through them (rule 10.8 of
    /// docs/MEMORY.md) finds the same.
    fn walk(
        g: &Geometry,
        tables: &Self::Tables,
        call: &Self::Call,
        answer: &Self::Answer,
    ) -> Result<(), String>;

    /// A valid geometry.
    fn random_geometry(random: &mut Random) -> Geometry;
    fn random_pool(random: &mut Random, g: &Geometry) -> Self::Pool;
    /// Tables of the right lengths that no history need leave.
    fn damaged_tables(random: &mut Random, g: &Geometry, pool: &Self::Pool) -> Self::Tables;
    /// A call for such tables.
    fn single_call(random: &mut Random, g: &Geometry, pool: &Self::Pool) -> Self::Call;

    /// The addresses whose entries `erase` takes away: none where the tables do not fit.
    fn held(g: &Geometry, tables: &Self::Tables) -> Vec<u32>;
    /// Takes an entry away with all that stands for it, so that tables which belong together stay
    /// so when a trial is cut down.
    fn erase(g: &Geometry, tables: &mut Self::Tables, address: u32);

    /// The tables of a less deep geometry of sets as wide, whose sets are the last ones of this: none
    /// where there is no such geometry or the tables do not fit.
    fn without_first(g: &Geometry, tables: &Self::Tables, less: &Geometry) -> Option<Self::Tables>;

    /// What a single call meets, from the tables before it and the answer.
    fn met_by_step(
        g: &Geometry,
        before: &Self::Tables,
        call: &Self::Call,
        answer: &Self::Answer,
    ) -> Vec<Subject>;
}

/// A family with a plain array, to which its histories are held.
pub trait Histories: Family {
    type Array: Clone;

    const HISTORIES: Names;
    const OF_HISTORIES: Required;

    /// The array before the first call, if such a call on such tables begins a history.
    fn begin(g: &Geometry, before: &Self::Tables, first: &Self::Call) -> Option<Self::Array>;
    /// The array's answer; it is fed no answer and no table of the library.
    fn answer(array: &mut Self::Array, call: &Self::Call) -> Self::Answer;
    /// The tables that belong to the array.
    fn tables_of(array: &Self::Array) -> Self::Tables;

    /// The call that begins a history, at times with others that fill the memory.
    fn opening(random: &mut Random, g: &Geometry, pool: &Self::Pool) -> Vec<Self::Call>;
    /// Tables on which this call begins one, whatever else they hold.
    fn begun_on(
        random: &mut Random,
        g: &Geometry,
        pool: &Self::Pool,
        first: &Self::Call,
    ) -> Self::Tables;
    /// Any later call.
    fn later_call(random: &mut Random, g: &Geometry, pool: &Self::Pool) -> Self::Call;

    /// What a call of a history meets, from the array before it and the answer.
    fn met_in_history(
        before: &Self::Array,
        call: &Self::Call,
        answer: &Self::Answer,
    ) -> Vec<Subject>;
}
