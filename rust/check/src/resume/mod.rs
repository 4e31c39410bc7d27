//! Resume, written a second time from docs/MEMORY.md: alone on any tables, and with the seven calls
//! in histories that it begins or cuts.

mod answer;
mod call;
pub mod cases;
mod course;
mod faults;
mod generate;
mod history_subjects;
pub mod library;
mod required;
pub mod step;
mod subjects;

pub use answer::Answer;
pub use call::Call;

use crate::binary::{Binary, Tables};
use crate::coverage::Required;
use crate::family::{Family, Histories};
use crate::geometry::Geometry;
use crate::options::Names;
use crate::pool::Pool;
use crate::random::Random;
use crate::subjects::Subject;
use course::Course;

#[derive(Clone)]
pub struct Resume;

impl Family for Resume {
    type Tables = Tables;
    type Call = Call;
    type Answer = Answer;
    type Pool = Pool;

    const SINGLE_CALLS: Names = Names {
        trials: "random resumes",
        trial: "resume",
        count: "--resumes",
        only: "--only-resume",
        default: 50_000,
        quick: 5_000,
        number: 5,
    };
    const OF_SINGLE_CALLS: Required = required::OF_SINGLE_CALLS;

    fn step(g: &Geometry, tables: &mut Tables, call: &Call) -> Answer {
        match call {
            Call::Resume => step::resume(g, tables),
            Call::Seven(call) => Answer::Seven(Binary::step(g, tables, call)),
        }
    }

    fn raw(g: &Geometry, tables: &mut Tables, call: &mut Call) -> u64 {
        library::raw(g, tables, call)
    }

    fn typed(g: &Geometry, tables: &mut Tables, call: &mut Call) -> Answer {
        library::typed(g, tables, call)
    }

    fn walk(g: &Geometry, tables: &Tables, call: &Call, answer: &Answer) -> Result<(), String> {
        match (call, answer) {
            (Call::Seven(call), Answer::Seven(answer)) => Binary::walk(g, tables, call, answer),
            _ => Ok(()),
        }
    }

    fn random_geometry(random: &mut Random) -> Geometry {
        Binary::random_geometry(random)
    }

    fn random_pool(random: &mut Random, g: &Geometry) -> Pool {
        Binary::random_pool(random, g)
    }

    fn damaged_tables(random: &mut Random, g: &Geometry, pool: &Pool) -> Tables {
        generate::any_tables(random, g, pool)
    }

    fn single_call(_: &mut Random, _: &Geometry, _: &Pool) -> Call {
        Call::Resume
    }

    fn held(g: &Geometry, tables: &Tables) -> Vec<u32> {
        Binary::held(g, tables)
    }

    fn erase(g: &Geometry, tables: &mut Tables, address: u32) {
        Binary::erase(g, tables, address);
    }

    fn without_first(g: &Geometry, tables: &Tables, less: &Geometry) -> Option<Tables> {
        Binary::without_first(g, tables, less)
    }

    fn met_by_step(g: &Geometry, before: &Tables, _: &Call, answer: &Answer) -> Vec<Subject> {
        subjects::of_resume(g, before, answer)
    }
}

impl Histories for Resume {
    type Array = Course;

    const HISTORIES: Names = Names {
        trials: "random histories cut by resumes",
        trial: "cut history",
        count: "--cut",
        only: "--only-cut",
        default: 20_000,
        quick: 2_000,
        number: 6,
    };
    const OF_HISTORIES: Required = required::OF_HISTORIES;

    /// With a resume or a clear that is accepted (rules 10.2 and 10.6).
    fn begin(g: &Geometry, before: &Tables, first: &Call) -> Option<Course> {
        match first {
            Call::Resume => step::shown(g, before).map(|array| Course::begun(array, true)),
            Call::Seven(first) => {
                Binary::begin(g, before, first).map(|array| Course::begun(array, false))
            }
        }
    }

    fn answer(course: &mut Course, call: &Call) -> Answer {
        course.call(call)
    }

    fn tables_of(course: &Course) -> Tables {
        Binary::tables_of(course.array())
    }

    fn opening(random: &mut Random, g: &Geometry, pool: &Pool) -> Vec<Call> {
        generate::opening(random, g, pool)
    }

    fn begun_on(random: &mut Random, g: &Geometry, pool: &Pool, first: &Call) -> Tables {
        match first {
            Call::Resume => generate::tables_of_some_array(random, g, pool),
            Call::Seven(first) => Binary::begun_on(random, g, pool, first),
        }
    }

    fn later_call(random: &mut Random, g: &Geometry, pool: &Pool) -> Call {
        generate::any_call(random, g, pool)
    }

    fn met_in_history(before: &Course, call: &Call, answer: &Answer) -> Vec<Subject> {
        history_subjects::of_history(before, call, answer)
    }
}
