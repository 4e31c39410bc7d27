//! Job files, with the limits of `camrun` and without them.

use crate::binary::array::Array;
use crate::binary::image;
use crate::coverage::Tally;
use crate::fit::folder::OUT;
use crate::fit::hex::named;
use crate::fit::names::Names;
use crate::fit::runs::{any_geometry, any_size, command, JOB};
use crate::fit::stops::stopped;
use crate::fit::text::{Line, Text};
use crate::fit::trial::{Files, Right, Trial};
use crate::fit::{random_group, Group};
use crate::jobs::generate::random_job;
use crate::jobs::job::{Command, Header, Job, COMMAND, HEADER};
use crate::jobs::report::report;
use crate::random::Random;

const NUMBER: u64 = 35;

pub fn groups(seed: u64) -> Vec<Group> {
    vec![
        random_group("job files run", seed, NUMBER, 150, within_limits),
        random_group("job files of any size", seed, NUMBER + 1, 150, of_any_size),
    ]
}

fn within_limits(random: &mut Random) -> Trial {
    let job = told_apart(random);
    let right = match job.accepted() {
        Err(number) => stopped(number),
        Ok(_) => Right::prints(0, report(&job, &mut Tally::default())),
    };
    Trial {
        what: job.to_string(),
        arguments: command(random, "run", &[JOB], &[]),
        given: Files::from([(JOB.to_string(), job.bytes)]),
        right,
    }
}

/// A file that is not taken for a text.
fn told_apart(random: &mut Random) -> Job {
    loop {
        let job = random_job(random);
        let head = &job.bytes[..job.bytes.len().min(HEADER)];
        if head.is_empty() || head.contains(&0) {
            return job;
        }
    }
}

fn of_any_size(random: &mut Random) -> Trial {
    let job = match random.one_in(2) {
        true => told_apart(random),
        false => large_job(random),
    };
    let (words, right) = match text_of(&job) {
        Err(number) => (&["run", JOB][..], stopped(number)),
        Ok(text) => run_or_written(random, &text),
    };
    Trial {
        what: job.to_string(),
        arguments: command(random, words[0], &words[1..], &[any_size()]),
        given: Files::from([(JOB.to_string(), job.bytes)]),
        right,
    }
}

fn run_or_written(random: &mut Random, text: &Text) -> (&'static [&'static str], Right) {
    let g = text.geometry;
    let mut array = Array::empty(g);
    let printed = text.report(&mut array);
    if !random.one_in(4) {
        return (&["run", JOB], Right::prints(0, printed));
    }
    let tables = image::tables(&g, array.entries());
    let right = Right {
        written: named(OUT, &Names::of(g), &tables),
        ..Right::default()
    };
    (&["tables", JOB, OUT], right)
}

/// Of any geometry and often with more commands than camrun takes.
fn large_job(random: &mut Random) -> Job {
    let geometry = any_geometry(random);
    let count = random.pick(&[0, 40, 1400, 3000]);
    let text = Text::random(random, geometry, count);
    let commands = text.lines.iter().filter_map(Line::command);
    Job::new(geometry, &[], &commands.collect::<Vec<Command>>(), &[])
}

/// What is run of the file, or the number that stops it: rule 13.6 without what it says of sizes.
fn text_of(job: &Job) -> Result<Text, u32> {
    let header = job.header().ok_or(7u32)?;
    let Header {
        geometry, offset, ..
    } = header;
    if offset < HEADER as u32 || header.end() > job.bytes.len() as u64 {
        return Err(7);
    }
    if !geometry.is_valid() {
        return Err(1);
    }
    let bytes = &job.bytes[offset as usize..header.end() as usize];
    let lines = bytes.chunks(COMMAND).map(|bytes| {
        let mut fields = bytes.chunks(4).map(|field| {
            let field = field.try_into().expect("a field has four bytes");
            u32::from_le_bytes(field)
        });
        let mut field = || fields.next().expect("a command has three fields");
        Line::Raw(Command {
            operation: field(),
            address: field(),
            pattern: field(),
        })
    });
    Ok(Text {
        geometry,
        lines: lines.collect(),
    })
}
