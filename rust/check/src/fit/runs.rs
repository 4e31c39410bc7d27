//! Texts that are run from an empty memory, held to the report of the plain array.

use crate::binary::array::Array;
use crate::fit::text::{spelt, Text};
use crate::fit::trial::{arguments, Files, Right, Trial};
use crate::fit::{random_group, Group};
use crate::geometry::{geometry, Geometry, SEGMENTED};
use crate::random::Random;
use crate::shapes::random_geometry;

const NUMBER: u64 = 30;

/// The name of the job in the folder, be it a text or a job file.
pub const JOB: &str = "job.txt";

/// With more commands than a job file has room for.
const LONG_TEXT: u32 = 3000;

pub fn groups(seed: u64) -> Vec<Group> {
    vec![
        random_group("texts run", seed, NUMBER, 400, any_run),
        random_group("a text of over a megabyte", seed, NUMBER + 1, 1, long_run),
    ]
}

pub fn any_geometry(random: &mut Random) -> Geometry {
    match random.one_in(16) {
        true => geometry(random.below(3), 4096, random.between(1, 6), 1),
        false => random_geometry(random),
    }
}

pub fn any_text(random: &mut Random, g: Geometry) -> Text {
    let any = random.between(1, 60);
    let count = random.pick(&[any, any, any, any, any, any, 0, LONG_TEXT]);
    Text::random(random, g, count)
}

fn any_run(random: &mut Random) -> Trial {
    let g = any_geometry(random);
    let text = any_text(random, g);
    run(random, text)
}

fn long_run(random: &mut Random) -> Trial {
    let text = Text::random(random, geometry(SEGMENTED, 100, 4, 8), 120_000);
    run(random, text)
}

fn run(random: &mut Random, text: Text) -> Trial {
    let mut array = Array::empty(text.geometry);
    let options = any_size_or_not(random);
    Trial {
        what: text.to_string(),
        arguments: command(random, "run", &[JOB], &options),
        given: Files::from([job(random, &text)]),
        right: Right::prints(0, text.report(&mut array)),
    }
}

/// For a text it changes nothing.
pub fn any_size_or_not(random: &mut Random) -> Vec<Vec<String>> {
    match random.one_in(8) {
        true => vec![any_size()],
        false => Vec::new(),
    }
}

pub fn any_size() -> Vec<String> {
    vec!["--any-size".to_string()]
}

/// With the options anywhere.
pub fn command(
    random: &mut Random,
    name: &str,
    operands: &[&str],
    options: &[Vec<String>],
) -> Vec<String> {
    arguments(name, operands, options, random.below(1000) as usize)
}

pub fn job(random: &mut Random, text: &Text) -> (String, Vec<u8>) {
    (JOB.to_string(), spelt(random, &text.plain()))
}
