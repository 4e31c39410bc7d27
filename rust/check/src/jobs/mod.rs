//! Random jobs for the program `camrun`: job files and their reports (sections 13 and 14 of
//! docs/MEMORY.md), written a second time on the plain array. No operation is a next-match.

mod camrun;
mod command_subjects;
pub mod difference;
mod file_subjects;
pub mod generate;
pub mod job;
pub mod report;
pub mod tables;

use crate::coverage::Required;
use crate::geometry::Geometry;
use crate::options::{Names, Options};
use crate::parts::{Counts, Part, RandomPart};
use crate::subjects::BROKEN_RULES;
use crate::watch::Death;
use job::{Header, Job, HEADER};

const NAMES: Names = Names {
    trials: "random jobs",
    trial: "job",
    count: "--jobs",
    only: "--only-job",
    default: 3000,
    quick: 0,
    number: 3,
};

/// Of a command that uses an address and no pattern.
const AT_AN_ADDRESS: &[&str] = &["refusal 8", "refusal 3", "empty", "pattern"];

/// 5 and 6 cannot occur (rule 10.5), nor can 2: the program lends match words that fit (rule 13.5).
const REQUIRED: Required = Required {
    answers: &[
        ("job", file_subjects::OF_EACH_KIND),
        ("clear", &["refusal 8", "cleared"]),
        ("write", &["refusal 3", "refusal 4", "empty", "pattern"]),
        ("erase", AT_AN_ADDRESS),
        ("read", AT_AN_ADDRESS),
        ("first-match", &["refusal 8", "refusal 4", "none", "at"]),
        ("all-match", &["refusal 8", "refusal 4", "no hits", "hits"]),
        ("another operation", &["refusal 8"]),
    ],
    occurs: |_, _| true,
    subjects: &[
        file_subjects::OF_FILES,
        BROKEN_RULES,
        &file_subjects::HIGH_BYTES,
        command_subjects::OF_COMMANDS,
    ],
};

/// The listing of `examples` and the random jobs.
struct Jobs(RandomPart<Job>);

/// Any file is a job.
pub fn part() -> Box<dyn Part> {
    Box::new(Jobs(RandomPart {
        names: NAMES,
        make: generate::random_job,
        admits: |_| true,
        judge: camrun::judge,
        cut: camrun::cut,
        text: camrun::keep,
        call: |_, _| None,
        job: |_, _, _| None,
        required: REQUIRED,
    }))
}

impl Part for Jobs {
    fn names(&self) -> Names {
        NAMES
    }

    fn ready(&self, options: &Options) -> Result<(), String> {
        let runs = match options.only_one {
            true => options.only(&NAMES).is_some(),
            false => options.trials(&NAMES) > 0,
        };
        if runs {
            camrun::is_there(&options.camrun)?;
        }
        Ok(())
    }

    /// With no job to run the program is not run at all.
    fn run_all(&self, options: &Options) -> Counts {
        if options.trials(&NAMES) == 0 {
            return Counts::default();
        }
        let mut counts = run_listing(options);
        counts.add(self.0.run_all(options));
        counts
    }

    fn run_one(&self, options: &Options, index: u64) -> Counts {
        self.0.run_one(options, index)
    }

    fn show_death(&self, options: &Options, death: &Death) {
        self.0.show_death(options, death);
    }
}

/// The number that stops a job of this geometry and so many commands, if one does.
pub fn stop(geometry: &Geometry, commands: u32) -> Option<u32> {
    let header = Header {
        geometry: *geometry,
        commands,
        offset: HEADER as u32,
    };
    header.stop(header.end() as usize)
}

fn run_listing(options: &Options) -> Counts {
    let mut counts = Counts::default();
    let outcome = camrun::judge_listing(options);
    counts.count(outcome.is_ok());
    if let Err(what) = outcome {
        println!("FAILED, camrun's listing\n    {what}");
    }
    println!("camrun's listing, examples/listing.txt: {counts}");
    counts
}
