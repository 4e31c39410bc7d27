//! Texts whose offset, count and length may stop them whole, as may a geometry that is none (rule
//! 13.6 of docs/MEMORY.md). A text has no limit of size.

use crate::binary::array::Array;
use crate::fit::runs::{command, JOB};
use crate::fit::several::small_geometry;
use crate::fit::text::{spelt, Line, Text};
use crate::fit::trial::{Files, Right, Trial};
use crate::fit::{random_group, Group};
use crate::jobs::job::{Command, COMMAND, HEADER};
use crate::random::Random;
use crate::shapes::break_rule;

const NUMBER: u64 = 34;

/// Where a text's commands may stand. Behind it an offset is written into the header alone.
const LAST_PLACE: u32 = 16_384;

pub fn group(seed: u64) -> Group {
    random_group("texts with settings", seed, NUMBER, 300, trial)
}

fn trial(random: &mut Random) -> Trial {
    let geometry = small_geometry(random);
    let count = random.below(8);
    let mut text = Text::random(random, geometry, count);
    if random.one_in(5) {
        break_rule(random, &mut text.geometry);
    }
    let settings = Settings::random(random, count);
    let right = settings.right(&text);
    let mut lines = text.plain();
    let mut of_settings = settings.lines();
    let turn = random.below(3) as usize % of_settings.len().max(1);
    of_settings.rotate_left(turn);
    lines.splice(1..1, of_settings);
    Trial {
        what: lines.join("; "),
        arguments: command(random, "run", &[JOB], &[]),
        given: Files::from([(JOB.to_string(), spelt(random, &lines))]),
        right,
    }
}

/// What a text says of its header and its length, if it does.
struct Settings {
    offset: Option<u32>,
    count: Option<u32>,
    length: Option<u32>,
}

impl Settings {
    /// Often around what the commands need.
    fn random(random: &mut Random, commands: u32) -> Settings {
        let offset = random.pick(&[0, 12, 23, 24, 24, 25, 36, 100, LAST_PLACE, LAST_PLACE + 1]);
        let offset = random.one_in(2).then_some(offset);
        let needed = place(offset.unwrap_or(24)) + 12 * commands;
        let around = needed - 1 + random.below(3);
        let length = random.pick(&[0, 23, 24, around, around, around, needed + 500, 40_000]);
        let more = commands + random.below(6);
        let count = random.pick(&[0, 1, more, more, 357_913_942, 1 << 30]);
        Settings {
            offset: random.pick(&[offset, offset, offset, Some(u32::MAX)]),
            count: random.one_in(2).then_some(count),
            length: random.one_in(2).then_some(length),
        }
    }

    fn lines(&self) -> Vec<String> {
        let settings = [
            ("offset", self.offset),
            ("count", self.count),
            ("length", self.length),
        ];
        let given = settings
            .iter()
            .filter_map(|(name, value)| Some((name, (*value)?)));
        given
            .map(|(name, value)| format!("{name} {value}"))
            .collect()
    }

    fn right(&self, text: &Text) -> Right {
        match self.run(text) {
            Ok(run) => Right::prints(0, run.report(&mut Array::empty(text.geometry))),
            Err(number) => stopped(number),
        }
    }

    /// What is run of the text, or the number that stops it whole.
    fn run(&self, text: &Text) -> Result<Text, u32> {
        let offset = self.offset.unwrap_or(HEADER as u32);
        let given = text.lines.len() as u32;
        let count = self.count.unwrap_or(given);
        let length = self
            .length
            .unwrap_or(place(offset) + COMMAND as u32 * given);
        let end = u64::from(offset) + COMMAND as u64 * u64::from(count);
        if length < HEADER as u32 || offset < HEADER as u32 || end > u64::from(length) {
            return Err(7);
        }
        if !text.geometry.is_valid() {
            return Err(1);
        }
        // Where no line stands there are zero bytes.
        let lines = text
            .lines
            .iter()
            .filter(|_| place(offset) == offset)
            .cloned();
        let zeros = Line::Raw(Command {
            operation: 0,
            address: 0,
            pattern: 0,
        });
        let lines = lines.chain(std::iter::repeat(zeros)).take(count as usize);
        Ok(Text {
            geometry: text.geometry,
            lines: lines.collect(),
        })
    }
}

fn place(offset: u32) -> u32 {
    match offset {
        24..=LAST_PLACE => offset,
        _ => 24,
    }
}

/// Of a job that a number stops whole. Standard error says why.
pub fn stopped(number: u32) -> Right {
    Right {
        printed: format!("job no {number}\n"),
        said: vec![format!("stopped with {number}: ")],
        ..Right::default()
    }
}
