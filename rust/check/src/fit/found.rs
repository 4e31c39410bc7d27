//! What there is to say of a board: the words that are not those of the model, or such as no
//! history leaves (rule 8.12 of docs/MEMORY.md).

use crate::binary::Tables;
use crate::fit::names::Names;
use crate::resume::step::made_anew;
use crate::resume::{step, Answer};
use crate::tables::EMPTY;

pub struct Found {
    /// One for each wrong word.
    pub lines: Vec<String>,
    last: String,
}

impl Found {
    /// At most so many lines, and the last one.
    pub fn printed(&self, most: usize) -> String {
        let lines = self.lines.iter().take(most).chain([&self.last]);
        lines.map(|line| format!("{line}\n")).collect()
    }

    pub fn status(&self) -> i32 {
        match self.lines.len() {
            0 => 0,
            _ => 1,
        }
    }
}

/// The board's tables beside those of the model.
pub fn compare(names: &Names, model: &Tables, board: &Tables) -> Found {
    let pairs = model.store.iter().zip(board.store.iter()).enumerate();
    let wrong = pairs.filter(|(_, (model, board))| model != board);
    let mut lines: Vec<String> = wrong
        .map(|(a, (model, board))| {
            format!("store word {a}: model {model:08x} board {board:08x}, address {a}")
        })
        .collect();
    lines.extend(indicators(names, &model.indicators, &board.indicators));
    let words = words_of(board);
    let last = match lines.len() {
        0 => format!("equal, {words} words"),
        wrong => format!("{wrong} of {words} words differ"),
    };
    Found { lines, last }
}

/// The board's tables alone: whether some history leaves them, which is what a resume asks.
pub fn judge(names: &Names, board: &Tables) -> Found {
    let g = &names.geometry;
    let words = board.store.iter().enumerate();
    let wrong = words.filter(|(_, &word)| word != EMPTY && word >= g.patterns());
    let mut lines: Vec<String> = wrong
        .map(|(a, word)| {
            format!("store word {a}: board {word:08x}, address {a}, neither empty nor a pattern")
        })
        .collect();
    let image = made_anew(g, board).indicators;
    lines.extend(indicators(names, &image, &board.indicators));
    let resumed = matches!(step::resume(g, board), Answer::Resumed);
    assert_eq!(lines.is_empty(), resumed, "a resume asks the same");
    let words = words_of(board);
    let last = match lines.len() {
        0 => format!("sound, {words} words"),
        wrong => {
            format!("no history leaves these tables: {wrong} of {words} words are wrong")
        }
    };
    Found { lines, last }
}

fn indicators(names: &Names, model: &[u64], board: &[u64]) -> Vec<String> {
    let pairs = model.iter().zip(board).enumerate();
    let wrong = pairs.filter(|(_, (model, board))| model != board);
    wrong
        .map(|(i, (&model, &board))| {
            let differences = names.differences(i, model, board);
            format!("indicators word {i}: model {model:016x} board {board:016x}, {differences}")
        })
        .collect()
}

fn words_of(tables: &Tables) -> usize {
    tables.store.len() + tables.indicators.len()
}
