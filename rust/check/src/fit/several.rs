//! Boards of any geometry with a few things wrong, in files of any spelling, and a bound on the
//! lines that are printed.

use crate::fit::asked::{Asked, QUESTIONS};
use crate::fit::board::Board;
use crate::fit::damage::any_change;
use crate::fit::hex;
use crate::fit::single::{LONG, SMALL};
use crate::fit::trial::Trial;
use crate::fit::{random_group, Group};
use crate::geometry::Geometry;
use crate::random::Random;
use crate::shapes::random_geometry;
use std::sync::Arc;

const NUMBER: u64 = 23;

pub fn group(seed: u64) -> Group {
    random_group("boards with several things wrong", seed, NUMBER, 500, trial)
}

fn trial(random: &mut Random) -> Trial {
    let geometry = small_geometry(random);
    let board = Arc::new(Board::random(random, geometry));
    let changes = (0..random.below(9)).map(|_| any_change(random, &board));
    let asked = Asked {
        changes: changes.collect(),
        question: random.pick(&QUESTIONS),
        most: random.pick(&[None, Some(0), Some(1), Some(2), Some(1_000_000)]),
        turn: random.below(1000) as usize,
        board: board.clone(),
    };
    let mut trial = asked.trial();
    let tables = board.changed(&asked.changes);
    let files = hex::any(random, "board", &board.names, &tables);
    trial.given.extend(files);
    trial
}

/// Mostly one in which a few changes meet.
pub fn small_geometry(random: &mut Random) -> Geometry {
    match random.below(4) {
        0 => random_geometry(random),
        1 => random.pick(&LONG),
        _ => random.pick(&SMALL),
    }
}
