//! The seven calls with all that each is given (section 7 of docs/MEMORY.md), in the notation of
//! its section 15.

use crate::binary::answer::describe;
use crate::family::{AnyCall, InJob, Sort, ADDRESS};
use crate::lent::{Lent, Table};
use std::fmt;

const PATTERN: Sort = "pattern";

#[derive(Clone)]
pub enum Call {
    Clear,
    Write { address: u32, pattern: u32 },
    Erase { address: u32 },
    Read { address: u32 },
    FirstMatch { key: u32 },
    NextMatch { address: u32, key: u32 },
    AllMatch { key: u32, lent: Table<u64> },
}

impl Call {
    /// The address, where one is given.
    pub fn address(&self) -> Option<u32> {
        self.given().1
    }

    /// The pattern or the key, where one is given.
    pub fn pattern(&self) -> Option<u32> {
        self.given().2
    }

    /// Name, address, and pattern or key.
    fn given(&self) -> (&'static str, Option<u32>, Option<u32>) {
        match *self {
            Call::Clear => ("clear", None, None),
            Call::Write { address, pattern } => ("write", Some(address), Some(pattern)),
            Call::Erase { address } => ("erase", Some(address), None),
            Call::Read { address } => ("read", Some(address), None),
            Call::FirstMatch { key } => ("first-match", None, Some(key)),
            Call::NextMatch { address, key } => ("next-match", Some(address), Some(key)),
            Call::AllMatch { key, .. } => ("all-match", None, Some(key)),
        }
    }
}

impl AnyCall for Call {
    fn name(&self) -> &'static str {
        self.given().0
    }

    fn numbers(&mut self) -> Vec<(Sort, &mut u32)> {
        match self {
            Call::Clear => vec![],
            Call::Write { address, pattern } => vec![(ADDRESS, address), (PATTERN, pattern)],
            Call::NextMatch { address, key } => vec![(ADDRESS, address), (PATTERN, key)],
            Call::Erase { address } | Call::Read { address } => vec![(ADDRESS, address)],
            Call::FirstMatch { key } | Call::AllMatch { key, .. } => vec![(PATTERN, key)],
        }
    }

    fn lent(&self) -> Option<&dyn Lent> {
        match self {
            Call::AllMatch { lent, .. } => Some(lent),
            _ => None,
        }
    }

    fn lent_mut(&mut self) -> Option<&mut dyn Lent> {
        match self {
            Call::AllMatch { lent, .. } => Some(lent),
            _ => None,
        }
    }

    /// The others leave both tables as they are (rule 8.5).
    fn writes_tables(&self) -> bool {
        matches!(self, Call::Clear | Call::Write { .. } | Call::Erase { .. })
    }

    fn describe(&self, code: u64) -> String {
        describe(self, code)
    }

    fn in_job(&self) -> InJob {
        InJob::Command(match self {
            Call::Clear => "clear".to_string(),
            Call::Write { address, pattern } => format!("write {address} {pattern}"),
            Call::Erase { address } => format!("erase {address}"),
            Call::Read { address } => format!("read {address}"),
            Call::FirstMatch { key } => format!("first {key}"),
            Call::NextMatch { .. } => return InJob::Nothing("no operation is a next-match"),
            Call::AllMatch { key, .. } => format!("all {key}"),
        })
    }
}

impl fmt::Display for Call {
    fn fmt(&self, f: &mut fmt::Formatter) -> fmt::Result {
        match self {
            Call::Clear => write!(f, "clear"),
            Call::Write { address, pattern } => write!(f, "{address}:={pattern}"),
            Call::Erase { address } => write!(f, "erase {address}"),
            Call::Read { address } => write!(f, "read {address}"),
            Call::FirstMatch { key } => write!(f, "match {key}"),
            Call::NextMatch { address, key } => write!(f, "next-match {key} above {address}"),
            Call::AllMatch { key, .. } => write!(f, "all-match {key}"),
        }
    }
}
