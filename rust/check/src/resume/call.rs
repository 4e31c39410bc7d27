//! A resume, which is given nothing but the tables (rule 7.7 of docs/MEMORY.md), beside the seven
//! calls.

use crate::binary::call::Call as SevenCalls;
use crate::family::{AnyCall, InJob, Sort};
use crate::lent::Lent;
use std::fmt;

#[derive(Clone)]
pub enum Call {
    Resume,
    Seven(SevenCalls),
}

impl AnyCall for Call {
    fn name(&self) -> &'static str {
        match self {
            Call::Resume => "resume",
            Call::Seven(call) => call.name(),
        }
    }

    fn numbers(&mut self) -> Vec<(Sort, &mut u32)> {
        match self {
            Call::Resume => vec![],
            Call::Seven(call) => call.numbers(),
        }
    }

    fn lent(&self) -> Option<&dyn Lent> {
        match self {
            Call::Resume => None,
            Call::Seven(call) => call.lent(),
        }
    }

    fn lent_mut(&mut self) -> Option<&mut dyn Lent> {
        match self {
            Call::Resume => None,
            Call::Seven(call) => call.lent_mut(),
        }
    }

    /// A resume changes no word, accepted or not (rule 8.12).
    fn writes_tables(&self) -> bool {
        match self {
            Call::Resume => false,
            Call::Seven(call) => call.writes_tables(),
        }
    }

    fn describe(&self, code: u64) -> String {
        match self {
            Call::Resume if code < 256 => format!("refusal {code}"),
            Call::Resume => format!("accepted, value {}", code - 256),
            Call::Seven(call) => call.describe(code),
        }
    }

    fn in_job(&self) -> InJob {
        match self {
            Call::Resume => InJob::NoJob,
            Call::Seven(call) => call.in_job(),
        }
    }
}

impl fmt::Display for Call {
    fn fmt(&self, f: &mut fmt::Formatter) -> fmt::Result {
        match self {
            Call::Resume => write!(f, "resume"),
            Call::Seven(call) => write!(f, "{call}"),
        }
    }
}
