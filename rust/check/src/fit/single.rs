//! Small boards in which one thing is wrong: each bit of each word, and each other entry of each
//! address.

use crate::fit::asked::{Asked, Question, QUESTIONS};
use crate::fit::board::Board;
use crate::fit::damage::{other_words, Change};
use crate::fit::{Group, Make};
use crate::geometry::{geometry, Geometry, CASCADED, SEGMENTED, TRANSPOSED};
use crate::random::Random;
use std::sync::Arc;

const NUMBER: u64 = 21;

pub const SMALL: [Geometry; 4] = [
    geometry(TRANSPOSED, 5, 2, 1),
    geometry(CASCADED, 3, 3, 1),
    geometry(SEGMENTED, 8, 2, 2),
    geometry(SEGMENTED, 5, 1, 2),
];

/// Rows of two words, the second with few sets; or two sets, the last of them short.
pub const LONG: [Geometry; 4] = [
    geometry(TRANSPOSED, 66, 1, 1),
    geometry(CASCADED, 65, 1, 1),
    geometry(SEGMENTED, 67, 1, 1),
    geometry(SEGMENTED, 66, 1, 64),
];

type Boards = Vec<Arc<Board>>;

pub fn groups(seed: u64) -> Vec<Group> {
    let random = &mut Random::of_trial(seed, NUMBER, 0);
    let any: Boards = SMALL.iter().map(|&g| half_full(random, g)).collect();
    let full: Boards = SMALL.iter().map(|&g| one_entry(random, g, true)).collect();
    let empty: Boards = SMALL.iter().map(|&g| one_entry(random, g, false)).collect();
    let long: Boards = LONG.iter().map(|&g| half_full(random, g)).collect();
    let all = [&any[..], &full, &empty, &long].concat();
    let [compare, judge] = QUESTIONS;
    let compared = [
        asked(&any, every_bit, compare),
        asked(&[full.clone(), empty].concat(), likely_bits, compare),
        asked(&long, every_bit, compare),
    ];
    let judged = [
        asked(&any, every_bit, judge),
        asked(&full, likely_bits, judge),
        asked(&long, |board| of_indicators(board, |_| true), judge),
    ];
    let of_entries = [
        asked(&all, entries, compare),
        asked(&all, entries, judge),
        undamaged(&all),
    ];
    vec![
        group("single wrong bits, compared", compared),
        group("single wrong bits, judged", judged),
        group("single wrong entries, and none", of_entries),
    ]
}

fn group(name: &'static str, parts: [Vec<Make>; 3]) -> Group {
    let trials = parts.into_iter().flatten().collect();
    Group { name, trials }
}

fn half_full(random: &mut Random, g: Geometry) -> Arc<Board> {
    Arc::new(Board::half_full(random, g))
}

/// One pattern everywhere, or nothing anywhere.
fn one_entry(random: &mut Random, g: Geometry, full: bool) -> Arc<Board> {
    let entry = full.then(|| random.below(g.patterns()));
    Arc::new(Board::new(random, g, vec![entry; g.depth as usize]))
}

/// A trial for each change.
fn asked(
    boards: &[Arc<Board>],
    changes: fn(&Board) -> Vec<Change>,
    question: Question,
) -> Vec<Make> {
    let of_board = |board: &Arc<Board>| {
        let changes = changes(board).into_iter();
        let trials = changes
            .zip(0..)
            .map(|(change, turn)| one(board, vec![change], question, turn));
        trials.collect::<Vec<Make>>()
    };
    boards.iter().flat_map(of_board).collect()
}

fn undamaged(boards: &[Arc<Board>]) -> Vec<Make> {
    let of_board = |board| QUESTIONS.map(|question| one(board, Vec::new(), question, 0));
    boards.iter().flat_map(of_board).collect()
}

fn one(board: &Arc<Board>, changes: Vec<Change>, question: Question, turn: usize) -> Make {
    let asked = Asked {
        board: board.clone(),
        changes,
        question,
        most: None,
        turn,
    };
    Box::new(move || asked.trial())
}

fn every_bit(board: &Board) -> Vec<Change> {
    [of_store(board), of_indicators(board, |_| true)].concat()
}

/// Those of the sets, and of the padding its ends.
fn likely_bits(board: &Board) -> Vec<Change> {
    let sets = board.geometry().sets() as u32;
    let indicators = of_indicators(board, |bit| bit <= sets || bit == 63);
    [of_store(board), indicators].concat()
}

/// Each bit of each word. Of a deeper board that is one bit of each word, and each bit of those
/// that are watched.
fn of_store(board: &Board) -> Vec<Change> {
    let watched = watched(board.geometry());
    let of_word = |address| {
        let turn = address as u32 % 32;
        let bits = match watched.contains(&address) {
            true => 0..32,
            false => turn..turn + 1,
        };
        bits.map(move |bit| Change::OfStore(address, bit))
    };
    (0..board.right.store.len()).flat_map(of_word).collect()
}

fn of_indicators(board: &Board, these: impl Fn(u32) -> bool) -> Vec<Change> {
    let words = 0..board.right.indicators.len();
    let bits = words.flat_map(|word| (0..64).map(move |bit| (word, bit)));
    let bits = bits.filter(|&(_, bit)| these(bit));
    bits.map(|(word, bit)| Change::Bit(word, bit)).collect()
}

fn entries(board: &Board) -> Vec<Change> {
    let of_address = |address| {
        let words = other_words(board, address).into_iter();
        words.map(move |word| Change::Entry(address, word))
    };
    let addresses = watched(board.geometry()).into_iter();
    addresses.flat_map(of_address).collect()
}

/// All addresses, or of a deeper board those where something ends.
fn watched(g: &Geometry) -> Vec<usize> {
    let depth = g.depth as usize;
    match depth {
        0..=8 => (0..depth).collect(),
        _ => vec![0, 63, 64, depth - 1],
    }
}
