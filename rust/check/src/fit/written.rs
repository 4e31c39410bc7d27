//! The two files of tables that the program writes, and reads again.

use crate::fit::board::Board;
use crate::fit::folder::OUT;
use crate::fit::found;
use crate::fit::hex::named;
use crate::fit::runs::{command, JOB};
use crate::fit::several::small_geometry;
use crate::fit::single::{LONG, SMALL};
use crate::fit::trial::{arguments, Files, Right, Trial};
use crate::fit::wide::{LARGEST, WIDE};
use crate::fit::{random_group, Group, Make};
use crate::geometry::{geometry, SEGMENTED};
use crate::random::Random;
use std::sync::Arc;

const NUMBER: u64 = 24;

type OfBoard = fn(&Board) -> Trial;

/// Each of the geometries in which tables are compared, and any others.
pub fn groups(seed: u64) -> Vec<Group> {
    let random = &mut Random::of_trial(seed, NUMBER + 1, 0);
    let of_board: [OfBoard; 3] = [|board| tables(board, OUT), compare, judge];
    let geometries = [&SMALL[..], &LONG, &WIDE, &LARGEST].concat();
    let trials = geometries.into_iter().flat_map(|g| {
        let board = Arc::new(Board::half_full(random, g));
        of_board.map(|trial| -> Make {
            let board = board.clone();
            Box::new(move || trial(&board))
        })
    });
    let these = Group {
        name: "tables written and read again",
        trials: trials.collect(),
    };
    let any = random_group(
        "tables of any boards written",
        seed,
        NUMBER,
        100,
        any_tables,
    );
    vec![these, any]
}

/// In a folder that is there or not, at times with tables that the program wrote before, of any
/// geometry. These give way, and a file of another name does not.
fn any_tables(random: &mut Random) -> Trial {
    let geometry = small_geometry(random);
    let board = Board::random(random, geometry);
    let folder = random.pick(&[OUT, "new"]);
    let mut trial = tables(&board, folder);
    trial.arguments = command(random, "tables", &[JOB, folder], &[]);
    if random.one_in(2) {
        trial.given.extend(old(random, folder));
    }
    trial
}

fn old(random: &mut Random, folder: &str) -> Files {
    let old = Board::random(random, geometry(SEGMENTED, 133, 3, 2));
    let mut files = named(folder, &old.names, &old.right);
    if random.one_in(4) {
        files.pop_first();
    }
    files.insert(
        format!("{folder}/other.hex"),
        b"of somebody else\n".to_vec(),
    );
    files
}

fn tables(board: &Board, folder: &str) -> Trial {
    Trial {
        what: board.to_string(),
        arguments: arguments("tables", &[JOB, folder], &[], 0),
        given: Files::from([board.job()]),
        right: Right {
            written: named(folder, &board.names, &board.right),
            ..Right::default()
        },
    }
}

/// What the program writes it takes for a board's.
fn compare(board: &Board) -> Trial {
    let found = found::compare(&board.names, &board.right, &board.right);
    let mut given = named("board", &board.names, &board.right);
    given.extend([board.job()]);
    Trial {
        what: format!("{board}, as written"),
        arguments: arguments("compare", &[JOB, "board"], &[], 0),
        given,
        right: Right::prints(0, found.printed(0)),
    }
}

fn judge(board: &Board) -> Trial {
    let found = found::judge(&board.names, &board.right);
    Trial {
        what: format!("{board}, as written"),
        arguments: arguments("judge", &[&board.geometry().line(), "board"], &[], 0),
        given: named("board", &board.names, &board.right),
        right: Right::prints(0, found.printed(0)),
    }
}
