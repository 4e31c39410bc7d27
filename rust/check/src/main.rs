//! The checking program. It holds the library's calls and the program `camrun` to a second writing
//! of docs/MEMORY.md, whose rules are cited by number. `family` says what a family of calls is,
//! `binary` is the family of the seven calls, `resume` has the resume beside them, `jobs` has the
//! job files and what is printed for them. It runs the cases of docs/MEMORY.md, examples from
//! elsewhere, random histories from an accepted clear, random single calls on damaged tables,
//! random resumes, random histories that resumes begin and cut, and random jobs. `fit` holds the
//! program `camfit` to the same writing, where that is asked for.

mod binary;
mod coverage;
mod family;
mod fit;
mod generate;
mod geometry;
mod jobs;
mod lent;
mod memory;
mod note;
mod options;
mod parts;
mod pool;
mod random;
mod reduce;
mod resume;
mod script;
mod scripts;
mod shapes;
mod sizes;
mod subjects;
mod system;
mod tables;
mod texts;
mod trial;
mod watch;

use binary::{cases, vectors, Binary};
use options::{help, Names, Options};
use parts::{histories, single_calls, Counts, Part};
use resume::Resume;
use scripts::{Scripts, WrittenOut};
use std::process::ExitCode;
use watch::{Death, Limits};

/// The parts of random trials, in the order in which they run.
fn random_parts() -> Vec<Box<dyn Part>> {
    vec![
        histories::<Binary>(),
        single_calls::<Binary>(),
        single_calls::<Resume>(),
        histories::<Resume>(),
        jobs::part(),
    ]
}

/// The written-out examples, which run before them.
fn written_out() -> [Box<dyn WrittenOut>; 3] {
    let cases = Scripts {
        name: "cases of docs/MEMORY.md",
        number: 11,
        scripts: cases::cases(),
    };
    let vectors = Scripts {
        name: "outside vectors",
        number: 12,
        scripts: vectors::vectors(),
    };
    let resumes = Scripts {
        name: "cases of resume",
        number: 13,
        scripts: resume::cases::cases(),
    };
    [Box::new(cases), Box::new(vectors), Box::new(resumes)]
}

/// Public, so that `tools/checkcore` can take the program for a library and link each core with it.
pub fn main() -> ExitCode {
    let parts = random_parts();
    let names: Vec<Names> = parts.iter().map(|part| part.names()).collect();
    let options = match Options::parse(&names, std::env::args().skip(1)) {
        Ok(options) => options,
        Err(what) => {
            eprintln!("{what}\n\n{}", help(&names));
            return ExitCode::from(2);
        }
    };
    if options.help {
        println!("{}", help(&names));
        return ExitCode::SUCCESS;
    }
    if let Some(task) = &options.tables {
        return ended(jobs::tables::run(task, options.trace));
    }
    if let Some(program) = &options.camfit {
        return fit::run(program, options.seed).map_or_else(not_ready, ended);
    }
    if let Err(what) = parts.iter().try_for_each(|part| part.ready(&options)) {
        return not_ready(what);
    }
    let run = || match options.only_one {
        true => run_only(&options, &parts),
        false => run_all(&options, &parts),
    };
    let counts = match options.limits() {
        Some(limits) => run_watched(&options, &parts, limits, run),
        None => run(),
    };
    ended(counts)
}

fn not_ready(what: String) -> ExitCode {
    eprintln!("{what}");
    ExitCode::from(2)
}

fn ended(counts: Counts) -> ExitCode {
    println!("{counts}");
    match counts.failed {
        0 => ExitCode::SUCCESS,
        _ => ExitCode::FAILURE,
    }
}

fn run_only(options: &Options, parts: &[Box<dyn Part>]) -> Counts {
    let mut counts = Counts::default();
    for part in parts {
        if let Some(index) = options.only(&part.names()) {
            counts.add(part.run_one(options, index));
        }
    }
    counts
}

fn run_all(options: &Options, parts: &[Box<dyn Part>]) -> Counts {
    let mut counts = Counts::default();
    for scripts in written_out() {
        counts.add(scripts.run(options));
    }
    for part in parts {
        counts.add(part.run_all(options));
    }
    counts.add(sizes::run(options));
    counts
}

/// What was counted by a run in a process of its own. A core that dies ends it, and counts as one
/// failure more.
fn run_watched(
    options: &Options,
    parts: &[Box<dyn Part>],
    limits: Limits,
    run: impl FnOnce() -> Counts,
) -> Counts {
    let outcome = watch::run(limits, || {
        run();
    });
    let mut counts = Counts::so_far();
    if let Err(death) = outcome {
        show_death(options, parts, &death);
        println!("The trials after this one were not run.");
        counts.count(false);
    }
    counts
}

fn show_death(options: &Options, parts: &[Box<dyn Part>], death: &Death) {
    let number = death.place.part;
    let scripts = written_out();
    if let Some(scripts) = scripts.iter().find(|scripts| scripts.number() == number) {
        scripts.show_death(options, death);
    } else if let Some(part) = parts.iter().find(|part| part.names().number == number) {
        part.show_death(options, death);
    } else {
        sizes::show_death(options, death);
    }
}
