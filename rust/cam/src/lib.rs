//! Safe calls of the proved search memory. Nothing is computed or tested here: each call goes to
//! the library, and the code that comes back is turned into a result. `raw` has the codes
//! themselves.
//!
//! [`Memory`] has tables of its own, of the lengths that the library asks for. The calls of
//! [`Geometry`] are lent both tables every time, and an all-match its match word: any geometry,
//! length and content may be passed. A call that is refused changes nothing.

mod memory;
mod places;
pub mod raw;
// The model's crate `checks` has the same file: it is valid in both languages.
#[path = "../../../crates/checks/src/reasons.rt"]
mod reasons;

pub use memory::{AllMatch, Memory};
pub use places::Places;

use std::error::Error;
use std::fmt;

pub const TRANSPOSED: u32 = 0;
pub const CASCADED: u32 = 1;
pub const SEGMENTED: u32 = 2;

/// The store's number for an empty address.
pub const EMPTY: u32 = u32::MAX;

/// The four numbers of a memory. Any numbers may stand here; the library refuses those that are no
/// geometry. A segmented memory's depth need not be a multiple of its set width: the last set has
/// the addresses that are left (rule 2.7 of docs/MEMORY.md).
#[derive(Clone, Copy, Debug, PartialEq, Eq)]
pub struct Geometry {
    pub kind: u32,
    pub depth: u32,
    pub pattern_width: u32,
    pub set_width: u32,
}

/// Why a call was refused, with its number in rule 9.1 of docs/MEMORY.md.
#[derive(Clone, Copy, Debug, PartialEq, Eq)]
pub enum Refusal {
    /// Kind, depth, pattern width or set width breaks a rule.
    Geometry = 1,
    /// The store, the indicators or the match word has not the length that the geometry asks for.
    Lengths = 2,
    /// The address is not below the depth.
    Address = 3,
    /// The pattern does not fit the pattern width.
    Pattern = 4,
    /// The entry at the address is neither empty nor a pattern.
    Entry = 5,
    /// A false set is in the way (rule 8.9).
    Set = 6,
    /// The tables are those of no array (rule 8.12).
    Tables = 10,
}

impl Refusal {
    pub fn number(self) -> u32 {
        self as u32
    }
}

impl fmt::Display for Refusal {
    fn fmt(&self, f: &mut fmt::Formatter) -> fmt::Result {
        let why = match self {
            Refusal::Geometry => reasons::BAD_GEOMETRY,
            Refusal::Lengths => reasons::BAD_LENGTHS,
            Refusal::Address => reasons::BAD_ADDRESS,
            Refusal::Pattern => reasons::BAD_PATTERN,
            Refusal::Entry => reasons::BAD_ENTRY,
            Refusal::Set => reasons::FALSE_SET,
            Refusal::Tables => reasons::BAD_TABLES,
        };
        write!(f, "refusal {}: {why}", self.number())
    }
}

impl Error for Refusal {}

/// What a first-match gives. The w of rule 8.10 is `words_read`, its c `entries_compared`: how many
/// addresses the set of the hit has in kind 2, else 0.
#[derive(Clone, Copy, Debug, PartialEq, Eq)]
pub struct FirstMatch {
    pub address: Option<u32>,
    pub words_read: u32,
    pub entries_compared: u32,
}

impl Geometry {
    /// How many words the indicators have. The only refusal is [`Refusal::Geometry`].
    pub fn indicator_words(self) -> Result<usize, Refusal> {
        accepted(raw::indicator_words(self)).map(|words| words as usize)
    }

    /// How many words a match word has. The only refusal is [`Refusal::Geometry`].
    pub fn match_words(self) -> Result<usize, Refusal> {
        accepted(raw::match_words(self)).map(|words| words as usize)
    }

    /// Accepts tables that some history leaves, those read back from a board, say, so that all that
    /// holds after a clear holds from here on. The refusals are [`Refusal::Geometry`],
    /// [`Refusal::Lengths`] and [`Refusal::Tables`].
    pub fn resume(self, store: &[u32], indicators: &[u64]) -> Result<(), Refusal> {
        accepted(raw::resume(self, store, indicators)).map(|_| ())
    }

    /// Empties every entry and zeroes every indicator word.
    pub fn clear(self, store: &mut [u32], indicators: &mut [u64]) -> Result<(), Refusal> {
        accepted(raw::clear(self, store, indicators)).map(|_| ())
    }

    /// Puts the pattern at the address and gives the previous entry, `None` for empty.
    pub fn write(
        self,
        store: &mut [u32],
        indicators: &mut [u64],
        address: u32,
        pattern: u32,
    ) -> Result<Option<u32>, Refusal> {
        accepted(raw::write(self, store, indicators, address, pattern)).map(entry)
    }

    /// Empties the address and gives the previous entry, `None` for empty.
    pub fn erase(
        self,
        store: &mut [u32],
        indicators: &mut [u64],
        address: u32,
    ) -> Result<Option<u32>, Refusal> {
        accepted(raw::erase(self, store, indicators, address)).map(entry)
    }

    /// The entry at the address, `None` for empty.
    pub fn read(
        self,
        store: &[u32],
        indicators: &[u64],
        address: u32,
    ) -> Result<Option<u32>, Refusal> {
        accepted(raw::read(self, store, indicators, address)).map(entry)
    }

    /// The lowest address that holds the key.
    pub fn first_match(
        self,
        store: &[u32],
        indicators: &[u64],
        key: u32,
    ) -> Result<FirstMatch, Refusal> {
        accepted(raw::first_match(self, store, indicators, key)).map(first_match)
    }

    /// The lowest address above the given one that holds the key. What the given one holds does not
    /// matter.
    pub fn next_match(
        self,
        store: &[u32],
        indicators: &[u64],
        address: u32,
        key: u32,
    ) -> Result<Option<u32>, Refusal> {
        accepted(raw::next_match(self, store, indicators, address, key)).map(found)
    }

    /// The addresses that hold the key, ascending: a first-match, then a next-match from each.
    pub fn places<'a>(self, store: &'a [u32], indicators: &'a [u64], key: u32) -> Places<'a> {
        Places::new(self, store, indicators, key)
    }

    /// Sets in the match word the bit of every address that holds the key, and gives their number.
    pub fn all_match(
        self,
        store: &[u32],
        indicators: &[u64],
        matches: &mut [u64],
        key: u32,
    ) -> Result<u32, Refusal> {
        accepted(raw::all_match(self, store, indicators, matches, key)).map(|hits| hits as u32)
    }
}

/// The value in an accepted call's code.
fn accepted(code: u64) -> Result<u64, Refusal> {
    match code {
        1 => Err(Refusal::Geometry),
        2 => Err(Refusal::Lengths),
        3 => Err(Refusal::Address),
        4 => Err(Refusal::Pattern),
        5 => Err(Refusal::Entry),
        6 => Err(Refusal::Set),
        10 => Err(Refusal::Tables),
        0 | 7..=9 | 11..=255 => {
            panic!("the library gave {code}, which is the number of no refusal")
        }
        _ => Ok(code - 256),
    }
}

fn entry(value: u64) -> Option<u32> {
    let stored = value as u32;
    (stored != EMPTY).then_some(stored)
}

/// The address of a match, `None` for none.
fn found(value: u64) -> Option<u32> {
    let address = (value & 0xffff) as u32;
    (address != 0xffff).then_some(address)
}

fn first_match(value: u64) -> FirstMatch {
    FirstMatch {
        address: found(value),
        words_read: (value >> 16 & 0xffff) as u32,
        entries_compared: (value >> 32) as u32,
    }
}
