//! Jobs that begin with a resume of a board's tables; and tables that no history leaves, from which
//! nothing is run.

use crate::binary::array::Array;
use crate::binary::{image, Tables};
use crate::fit::board::Board;
use crate::fit::damage::any_change;
use crate::fit::folder::OUT;
use crate::fit::found::{self, Found};
use crate::fit::hex;
use crate::fit::runs::{any_size_or_not, any_text, command, job, JOB};
use crate::fit::several::small_geometry;
use crate::fit::trial::{option, Files, Right, Trial};
use crate::fit::{random_group, Group};
use crate::random::Random;

const NUMBER: u64 = 32;

/// The folder of the tables from which a job begins.
const BEFORE: &str = "before";

pub fn groups(seed: u64) -> Vec<Group> {
    vec![
        random_group("jobs begun on tables", seed, NUMBER, 300, on_tables),
        random_group("tables refused", seed, NUMBER + 1, 80, on_damaged),
    ]
}

/// Such a job is run, or its tables are written or compared.
fn on_tables(random: &mut Random) -> Trial {
    let g = small_geometry(random);
    let before = Board::random(random, g);
    let text = any_text(random, g);
    let mut array = Array::holding(g, before.entries.clone());
    let printed = text.report(&mut array);
    let after = image::tables(&g, array.entries());
    let what = format!("{before}; then {text}");
    let mut given = hex::any(random, BEFORE, &before.names, &before.right);
    given.extend([job(random, &text)]);
    match random.below(4) {
        0 => written(random, what, given, &before, &after),
        1 => compared(random, what, given, &before, &after),
        _ => Trial {
            what,
            arguments: on_before(random, "run", &[JOB], None),
            given,
            right: Right::prints(0, printed),
        },
    }
}

/// At times where the tables were from which the job began.
fn written(
    random: &mut Random,
    what: String,
    given: Files,
    before: &Board,
    after: &Tables,
) -> Trial {
    let folder = random.pick(&[OUT, BEFORE]);
    let mut given = given;
    if folder == BEFORE {
        given.extend(hex::named(BEFORE, &before.names, &before.right));
    }
    Trial {
        what,
        arguments: on_before(random, "tables", &[JOB, folder], None),
        given,
        right: Right {
            written: hex::named(folder, &before.names, after),
            ..Right::default()
        },
    }
}

/// The board has the right tables, or those from before the job.
fn compared(
    random: &mut Random,
    what: String,
    given: Files,
    before: &Board,
    after: &Tables,
) -> Trial {
    let board = random.pick(&[after, &before.right]);
    let found = found::compare(&before.names, after, board);
    let mut given = given;
    given.extend(hex::any(random, "board", &before.names, board));
    let most = random.pick(&[None, Some(0), Some(3)]);
    Trial {
        what,
        arguments: on_before(random, "compare", &[JOB, "board"], most),
        given,
        right: Right::prints(found.status(), found.printed(most.unwrap_or(usize::MAX))),
    }
}

/// Nothing is printed and nothing written; standard error says why, as a judge does.
fn on_damaged(random: &mut Random) -> Trial {
    let g = small_geometry(random);
    let before = Board::random(random, g);
    let text = any_text(random, g);
    let (tables, found) = refused(random, &before);
    let mut given = hex::any(random, BEFORE, &before.names, &tables);
    given.extend([job(random, &text)]);
    given.extend(hex::plain("board", &before.right));
    let words: &[&str] = random.pick(&[
        &["run", JOB][..],
        &["tables", JOB, OUT],
        &["compare", JOB, "board"],
    ]);
    Trial {
        what: format!("{before}, damaged: {}", found.lines[0]),
        arguments: on_before(random, words[0], &words[1..], None),
        given,
        right: Right {
            status: 1,
            said: vec![" 10".to_string(), found.lines[0].clone()],
            ..Right::default()
        },
    }
}

/// Tables with up to three changes, which no history leaves.
fn refused(random: &mut Random, before: &Board) -> (Tables, Found) {
    loop {
        let changes: Vec<_> = (0..random.between(1, 3))
            .map(|_| any_change(random, before))
            .collect();
        let tables = before.changed(&changes);
        let found = found::judge(&before.names, &tables);
        if !found.lines.is_empty() {
            return (tables, found);
        }
    }
}

fn on_before(
    random: &mut Random,
    name: &str,
    operands: &[&str],
    most: Option<usize>,
) -> Vec<String> {
    let mut options = any_size_or_not(random);
    options.push(option("--on", BEFORE));
    options.extend(most.map(|most| option("--most", &most.to_string())));
    command(random, name, operands, &options)
}
