//! What is changed in the tables of a board.

use crate::binary::Tables;
use crate::fit::board::Board;
use crate::geometry::Geometry;
use crate::random::Random;
use crate::tables::EMPTY;
use std::fmt::{self, Display};

/// What is no entry in any geometry.
const NO_ENTRIES: [u32; 2] = [0x7fff_ffff, 0xffff_fffe];

/// One thing that is changed in the tables of a board.
#[derive(Clone, Copy)]
pub enum Change {
    /// The word of an address becomes another.
    Entry(usize, u32),
    /// A bit of a word of the store is flipped.
    OfStore(usize, u32),
    /// A bit of a word of the indicators is flipped.
    Bit(usize, u32),
}

impl Change {
    pub fn make(&self, tables: &mut Tables) {
        match *self {
            Change::Entry(address, word) => tables.store[address] = word,
            Change::OfStore(address, bit) => tables.store[address] ^= 1 << bit,
            Change::Bit(word, bit) => tables.indicators[word] ^= 1 << bit,
        }
    }
}

impl Display for Change {
    fn fmt(&self, f: &mut fmt::Formatter) -> fmt::Result {
        match self {
            Change::Entry(address, word) => write!(f, "store word {address} is {word:08x}"),
            Change::OfStore(address, bit) => write!(f, "bit {bit} of store word {address} flipped"),
            Change::Bit(word, bit) => write!(f, "bit {bit} of indicators word {word} flipped"),
        }
    }
}

/// Every word that an address may have but the one that it has: all patterns, empty, and some that
/// are no entry.
pub fn other_words(board: &Board, address: usize) -> Vec<u32> {
    let patterns = board.geometry().patterns();
    let words = (0..patterns).chain([patterns, EMPTY]).chain(NO_ENTRIES);
    let now = board.right.store[address];
    words.filter(|&word| word != now).collect()
}

/// One at random. Most bits are such as a set has: rows may be nearly all padding.
pub fn any_change(random: &mut Random, board: &Board) -> Change {
    let g = board.geometry();
    let address = random.below(g.depth) as usize;
    match random.below(8) {
        0 => Change::OfStore(address, random.below(32)),
        1 => Change::Entry(address, random.pick(&NO_ENTRIES)),
        2 => Change::Entry(address, random.pick(&[g.patterns(), EMPTY])),
        3 => Change::Entry(address, random.below(g.patterns())),
        4 => any_bit(random, g, 64 * g.row_words()),
        _ => any_bit(random, g, g.sets()),
    }
}

/// Of any row one of its first so many bits.
fn any_bit(random: &mut Random, g: &Geometry, bits: usize) -> Change {
    let rows = g.indicator_words() / g.row_words();
    let (row, bit) = (random.below(rows as u32), random.below(bits as u32));
    let word = g.row_words() * row as usize + bit as usize / 64;
    Change::Bit(word, bit % 64)
}
