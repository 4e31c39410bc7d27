//! What comes back from the seven calls, as the exported functions put it into one number (rules
//! 12.1 to 12.3 and 12.6 of docs/MEMORY.md), and in words.

use crate::binary::call::Call;
use crate::family::AnyAnswer;
use crate::lent::{Lent, Table};
use crate::tables::EMPTY;

/// The number of no address, for no match.
const NOWHERE: u64 = 65_535;

pub enum Answer {
    Refused(u32),
    Cleared,
    /// What the address had (rule 7.4).
    Entry(Option<u32>),
    At {
        address: u32,
        words_read: u32,
        entries_compared: u32,
    },
    NoMatch {
        words_read: u32,
        entries_compared: u32,
    },
    /// Of a next-match, which has no counts (rule 7.8).
    Next(Option<u32>),
    Matches {
        matches: Table<u64>,
        hits: u32,
    },
}

impl AnyAnswer for Answer {
    fn code(&self) -> u64 {
        let first = |address: u64, words_read: u32, entries_compared: u32| {
            256 + address + 65_536 * u64::from(words_read) + (u64::from(entries_compared) << 32)
        };
        match *self {
            Answer::Refused(number) => u64::from(number),
            Answer::Cleared => 256,
            Answer::Entry(entry) => 256 + u64::from(entry.unwrap_or(EMPTY)),
            Answer::At {
                address,
                words_read,
                entries_compared,
            } => first(u64::from(address), words_read, entries_compared),
            Answer::NoMatch {
                words_read,
                entries_compared,
            } => first(NOWHERE, words_read, entries_compared),
            Answer::Next(address) => 256 + address.map_or(NOWHERE, u64::from),
            Answer::Matches { hits, .. } => 256 + u64::from(hits),
        }
    }

    fn label(&self) -> &'static str {
        match self {
            Answer::Refused(1) => "refusal 1",
            Answer::Refused(2) => "refusal 2",
            Answer::Refused(3) => "refusal 3",
            Answer::Refused(4) => "refusal 4",
            Answer::Refused(5) => "refusal 5",
            Answer::Refused(6) => "refusal 6",
            Answer::Refused(8) => "refusal 8",
            Answer::Refused(_) => unreachable!("no other number is ever right"),
            Answer::Cleared => "cleared",
            Answer::Entry(None) => "empty",
            Answer::Entry(Some(_)) => "pattern",
            Answer::NoMatch { .. } => "none",
            Answer::At { .. } => "at",
            Answer::Next(None) => "no next",
            Answer::Next(Some(_)) => "next",
            Answer::Matches { hits: 0, .. } => "no hits",
            Answer::Matches { .. } => "hits",
        }
    }

    fn left(&self) -> Option<&dyn Lent> {
        match self {
            Answer::Matches { matches, .. } => Some(matches),
            _ => None,
        }
    }
}

/// What a code says as the answer to a call.
pub fn describe(call: &Call, code: u64) -> String {
    if code < 256 {
        return format!("refusal {code}");
    }
    let value = code - 256;
    match call {
        Call::Clear => format!("accepted, value {value}"),
        Call::Write { .. } | Call::Erase { .. } => format!("formerly {}", entry_text(value)),
        Call::Read { .. } => format!("entry {}", entry_text(value)),
        Call::FirstMatch { .. } => {
            let (w, c) = (value >> 16 & 0xffff, value >> 32);
            match value & 0xffff {
                NOWHERE => format!("none, w {w}, c {c}"),
                address => format!("at {address}, w {w}, c {c}"),
            }
        }
        Call::NextMatch { .. } => match value {
            NOWHERE => "none".to_string(),
            0..NOWHERE => format!("at {value}"),
            _ => format!("value {value}, which is over 65,535"),
        },
        Call::AllMatch { .. } => format!("{value} hits"),
    }
}

fn entry_text(value: u64) -> String {
    if value == u64::from(EMPTY) {
        "empty".to_string()
    } else {
        value.to_string()
    }
}
