//! Boards with so many words that a run of the program for each bit would take too long: in each
//! run many words are wrong.

use crate::fit::asked::{Asked, Question, QUESTIONS};
use crate::fit::board::Board;
use crate::fit::damage::{any_change, Change};
use crate::fit::trial::Trial;
use crate::fit::{Group, Make};
use crate::geometry::{geometry, Geometry, CASCADED, SEGMENTED, TRANSPOSED};
use crate::random::Random;
use std::sync::Arc;

const NUMBER: u64 = 22;

/// Two and three stages, the last of them of one bit or whole; and sets of many addresses, the last
/// of them short or not.
pub const WIDE: [Geometry; 6] = [
    geometry(CASCADED, 3, 10, 1),
    geometry(CASCADED, 65, 19, 1),
    geometry(CASCADED, 2, 27, 1),
    geometry(SEGMENTED, 133, 5, 2),
    geometry(SEGMENTED, 1000, 8, 64),
    geometry(SEGMENTED, 4096, 12, 64),
];

/// The largest tables of each kind.
pub const LARGEST: [Geometry; 4] = [
    geometry(TRANSPOSED, 4096, 12, 1),
    geometry(CASCADED, 4096, 27, 1),
    geometry(SEGMENTED, 4096, 12, 1),
    geometry(SEGMENTED, 4096, 12, 63),
];

/// So many things are wrong at once in the largest.
const MANY: usize = 4000;

pub fn group(seed: u64) -> Group {
    let random = &mut Random::of_trial(seed, NUMBER, 0);
    let mut trials = Vec::new();
    for g in WIDE {
        let board = Arc::new(Board::half_full(random, g));
        for bit in 0..64 {
            trials.push(in_every_word(&board, bit, Question::Compare));
            if bit % 4 == 0 {
                trials.push(in_every_word(&board, bit, Question::Judge));
            }
        }
    }
    for (g, index) in LARGEST.into_iter().zip(1..) {
        let board = Arc::new(Board::half_full(random, g));
        trials.extend(QUESTIONS.map(|question| many(&board, seed, index, question)));
    }
    Group {
        name: "wide boards with much wrong",
        trials,
    }
}

/// The bit of this number in every word of the indicators, and another one in each word of the
/// store. Where boards are judged most stores stay as they are, or few words would be entries.
fn in_every_word(board: &Arc<Board>, bit: u32, question: Question) -> Make {
    let board = board.clone();
    Box::new(move || {
        let g = board.geometry();
        let addresses = match (question, bit % 16) {
            (Question::Judge, 1..) => 0..0,
            _ => 0..g.depth,
        };
        let of_store = addresses.map(|a| Change::OfStore(a as usize, (a + bit) % 32));
        let of_indicators = (0..g.indicator_words()).map(|word| Change::Bit(word, bit));
        let changes = of_store.chain(of_indicators).collect();
        asked(&board, changes, question)
    })
}

fn many(board: &Arc<Board>, seed: u64, index: u64, question: Question) -> Make {
    let board = board.clone();
    Box::new(move || {
        let random = &mut Random::of_trial(seed, NUMBER, index);
        let changes = (0..MANY).map(|_| any_change(random, &board)).collect();
        asked(&board, changes, question)
    })
}

fn asked(board: &Arc<Board>, changes: Vec<Change>, question: Question) -> Trial {
    let asked = Asked {
        board: board.clone(),
        changes,
        question,
        most: Some(1_000_000),
        turn: 0,
    };
    asked.trial()
}
