//! The binary memory, written a second time from docs/MEMORY.md: the seven calls, on the plain
//! array and on any tables.

pub mod answer;
pub mod array;
pub mod call;
pub mod cases;
pub mod generate;
pub mod image;
pub mod library;
pub mod lines;
mod next_subjects;
mod required;
pub mod short_subjects;
mod steps;
pub mod subjects;
pub mod vectors;

use crate::coverage::Required;
use crate::family::{Family, Histories};
use crate::geometry::Geometry;
use crate::lent::{AnyTables, Lent, Table};
use crate::options::Names;
use crate::pool::Pool;
use crate::random::Random;
use crate::shapes;
use crate::subjects::Subject;
use crate::tables::{bits_of_last_sets, marked, INDICATORS, STORE};
use answer::Answer;
use array::Array;
use call::Call;

#[derive(Clone)]
pub struct Binary;

#[derive(Clone)]
pub struct Tables {
    pub store: Table<u32>,
    pub indicators: Table<u64>,
}

impl AnyTables for Tables {
    fn all(&self) -> Vec<&dyn Lent> {
        vec![&self.store, &self.indicators]
    }

    fn all_mut(&mut self) -> Vec<&mut dyn Lent> {
        vec![&mut self.store, &mut self.indicators]
    }
}

impl Family for Binary {
    type Tables = Tables;
    type Call = Call;
    type Answer = Answer;
    type Pool = Pool;

    const SINGLE_CALLS: Names = Names {
        trials: "random single calls",
        trial: "single call",
        count: "--calls",
        only: "--only-call",
        default: 200_000,
        quick: 20_000,
        number: 2,
    };
    const OF_SINGLE_CALLS: Required = required::OF_SINGLE_CALLS;

    fn step(g: &Geometry, tables: &mut Tables, call: &Call) -> Answer {
        steps::step(g, tables, call)
    }

    fn raw(g: &Geometry, tables: &mut Tables, call: &mut Call) -> u64 {
        library::raw(g, tables, call)
    }

    fn typed(g: &Geometry, tables: &mut Tables, call: &mut Call) -> Answer {
        library::typed(g, tables, call)
    }

    fn walk(g: &Geometry, tables: &Tables, call: &Call, answer: &Answer) -> Result<(), String> {
        match (call, answer) {
            (Call::AllMatch { key, .. }, Answer::Matches { matches, .. }) => {
                library::walk(g, tables, *key, &marked(matches))
            }
            _ => Ok(()),
        }
    }

    fn random_geometry(random: &mut Random) -> Geometry {
        shapes::random_geometry(random)
    }

    fn random_pool(random: &mut Random, g: &Geometry) -> Pool {
        Pool::random(random, g)
    }

    fn damaged_tables(random: &mut Random, g: &Geometry, pool: &Pool) -> Tables {
        generate::tables_of_single_calls(random, g, pool)
    }

    fn single_call(random: &mut Random, g: &Geometry, pool: &Pool) -> Call {
        generate::mostly_not_clear(random, g, pool)
    }

    fn held(g: &Geometry, tables: &Tables) -> Vec<u32> {
        if !g.is_valid() || !tables.fit(g) {
            return Vec::new();
        }
        (0..g.depth)
            .filter(|&address| tables.store[address as usize] < g.patterns())
            .collect()
    }

    fn erase(g: &Geometry, tables: &mut Tables, address: u32) {
        steps::step(g, tables, &Call::Erase { address });
    }

    fn without_first(g: &Geometry, tables: &Tables, less: &Geometry) -> Option<Tables> {
        let fit = g.is_valid() && less.is_valid() && tables.fit(g);
        fit.then(|| Tables {
            store: STORE.table(&tables.store[(g.depth - less.depth) as usize..]),
            indicators: INDICATORS.table(&bits_of_last_sets(g, &tables.indicators, less)),
        })
    }

    fn met_by_step(g: &Geometry, before: &Tables, call: &Call, answer: &Answer) -> Vec<Subject> {
        subjects::of_step(g, before, call, answer)
    }
}

impl Histories for Binary {
    type Array = Array;

    const HISTORIES: Names = Names {
        trials: "random histories",
        trial: "history",
        count: "--histories",
        only: "--only-history",
        default: 100_000,
        quick: 10_000,
        number: 1,
    };
    const OF_HISTORIES: Required = required::OF_HISTORIES;

    /// With a clear that is accepted (rule 10.2).
    fn begin(g: &Geometry, before: &Tables, first: &Call) -> Option<Array> {
        let accepted = matches!(first, Call::Clear) && g.is_valid() && before.fit(g);
        accepted.then(|| Array::empty(*g))
    }

    fn answer(array: &mut Array, call: &Call) -> Answer {
        array.call(call)
    }

    fn tables_of(array: &Array) -> Tables {
        image::tables(&array.geometry(), array.entries())
    }

    fn opening(random: &mut Random, g: &Geometry, pool: &Pool) -> Vec<Call> {
        generate::opening(random, g, pool)
    }

    fn begun_on(random: &mut Random, g: &Geometry, _: &Pool, _: &Call) -> Tables {
        generate::dirty_tables(random, g)
    }

    fn later_call(random: &mut Random, g: &Geometry, pool: &Pool) -> Call {
        generate::random_call(random, g, pool)
    }

    fn met_in_history(before: &Array, call: &Call, answer: &Answer) -> Vec<Subject> {
        subjects::of_history(before, call, answer)
    }
}
