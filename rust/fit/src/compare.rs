//! Tables beside tables: which words are wrong, with a line for each.

use crate::names::Names;
use crate::tables::Tables;
use cam::{Memory, Refusal, EMPTY};

/// The words of a board's tables that are wrong.
pub struct Wrong {
    names: Names,
    faults: Vec<Fault>,
}

/// A word that is wrong: its number, and what it is.
enum Fault {
    /// Another entry than the model's.
    Entry { at: usize, model: u32, board: u32 },
    /// No entry at all.
    NoEntry { at: usize, board: u32 },
    /// Other bits than the model's.
    Bits { at: usize, model: u64, board: u64 },
}

/// The words in which the board's tables are not the model's.
pub fn differences(model: &Tables, board: &Tables) -> Wrong {
    let store = model.store.iter().zip(&board.store).enumerate();
    let store = store.filter(|(_, (model, board))| model != board);
    let store = store.map(|(at, (&model, &board))| Fault::Entry { at, model, board });
    Wrong {
        names: Names::new(board.geometry),
        faults: store
            .chain(wrong_bits(&model.indicators, &board.indicators))
            .collect(),
    }
}

/// What keeps a board's tables from being those of any history: words of the store that are no
/// entries, and words of the indicators that are not those of the image of what the store shows.
/// The library makes that image, by writing the entries one after the other.
pub fn faults(board: &Tables) -> Result<Wrong, Refusal> {
    let mut model = Memory::new(board.geometry)?;
    let mut faults = Vec::new();
    for (address, &word) in (0..).zip(&board.store) {
        // Only a word that is no pattern is refused.
        if word != EMPTY && model.write(address, word).is_err() {
            faults.push(Fault::NoEntry {
                at: address as usize,
                board: word,
            });
        }
    }
    faults.extend(wrong_bits(model.indicators(), &board.indicators));
    Ok(Wrong {
        names: Names::new(board.geometry),
        faults,
    })
}

/// The words of the indicators in which the board's are not the model's.
fn wrong_bits<'a>(model: &'a [u64], board: &'a [u64]) -> impl Iterator<Item = Fault> + 'a {
    let words = model.iter().zip(board).enumerate();
    let words = words.filter(|(_, (model, board))| model != board);
    words.map(|(at, (&model, &board))| Fault::Bits { at, model, board })
}

impl Wrong {
    /// How many words are wrong.
    pub fn count(&self) -> usize {
        self.faults.len()
    }

    /// A line for each of the first ones.
    pub fn lines(&self, most: usize) -> impl Iterator<Item = String> + '_ {
        let faults = self.faults.iter().take(most);
        faults.map(|fault| self.line(fault))
    }

    fn line(&self, fault: &Fault) -> String {
        match *fault {
            Fault::Entry { at, model, board } => {
                format!("store word {at}: model {model:08x} board {board:08x}, address {at}")
            }
            Fault::NoEntry { at, board } => format!(
                "store word {at}: board {board:08x}, address {at}, neither empty nor a pattern"
            ),
            Fault::Bits { at, model, board } => {
                let row = self.names.row(at / self.names.row_words());
                let wrong = self.names.wrong_bits(at, model, board);
                format!("indicators word {at}: model {model:016x} board {board:016x}, {row}{wrong}")
            }
        }
    }
}
