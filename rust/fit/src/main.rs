//! camfit, the fitter's bench: what a right board answers to a job, the tables that it leaves, and
//! a board's tables compared with them or judged by themselves. Every answer of a call and every
//! word of the model is the proved library's; what is written here reads, names and prints. The
//! rules that are cited are those of docs/MEMORY.md.

mod compare;
mod files;
mod hex;
mod job;
mod names;
mod options;
mod report;
mod tables;
mod text;
mod words;
mod written;

use cam::{Geometry, Memory, Refusal};
use compare::{differences, faults, Wrong};
use files::{reason, shown};
use job::Accepted;
use options::{JobGiven, Task, HELP};
use std::fmt::Display;
use std::fs::File;
use std::io::{self, BufWriter, Write};
use std::iter::once;
use std::os::fd::AsFd;
use std::path::Path;
use std::process::ExitCode;
use tables::{geometry_line, Tables};

/// How a command ends that is not right: its exit status, and what is said on standard error.
struct Ended {
    status: u8,
    what: Option<String>,
}

/// The command line is wrong, a job is stopped as a whole, or something cannot be read or written.
impl From<String> for Ended {
    fn from(what: String) -> Ended {
        Ended {
            status: 2,
            what: Some(what),
        }
    }
}

/// A refusal by the library, in its own words.
impl From<Refusal> for Ended {
    fn from(refusal: Refusal) -> Ended {
        refusal.to_string().into()
    }
}

/// Words are wrong, and were printed.
const PRINTED: Ended = Ended {
    status: 1,
    what: None,
};

fn main() -> ExitCode {
    let words = std::env::args_os().skip(1).collect();
    let ended = match Task::parse(words) {
        Ok(task) => perform(task),
        Err(what) => Err(format!("camfit: {what}\ncamfit --help tells more").into()),
    };
    match ended {
        Ok(()) => ExitCode::SUCCESS,
        Err(Ended { status, what }) => {
            what.iter().for_each(|what| tell(what));
            ExitCode::from(status)
        }
    }
}

fn perform(task: Task) -> Result<(), Ended> {
    match task {
        Task::Run { job } => run(&job),
        Task::Tables { job, folder } => Ok(tables_after(&job)?.write(&folder)?),
        Task::Compare { job, folder, most } => compare(&job, &folder, most),
        Task::Judge {
            geometry,
            folder,
            most,
        } => judge(geometry, &folder, most),
        Task::Help => Ok(print([HELP])?),
    }
}

/// A job that is stopped as a whole has a report too.
fn run(given: &JobGiven) -> Result<(), Ended> {
    let job = job::read(&given.file, given.any_size)?;
    let accepted = match job.accepted() {
        Ok(accepted) => accepted,
        Err(stop) => {
            print([format!("job no {}", stop.number)])?;
            tell(&job.stopped(&stop));
            return Ok(());
        }
    };
    let mut memory = beginning(given, accepted.geometry)?;
    let first = geometry_line(accepted.geometry);
    let commands = accepted.commands.iter().enumerate();
    let lines = commands.map(|(number, command)| {
        let answer = report::perform(&mut memory, command);
        format!("{number} {answer}")
    });
    Ok(print(once(first).chain(lines))?)
}

/// The model's tables after a job.
fn tables_after(given: &JobGiven) -> Result<Tables, Ended> {
    let job = job::read(&given.file, given.any_size)?;
    let accepted = job.accepted().map_err(|stop| job.stopped(&stop))?;
    let Accepted { geometry, commands } = accepted;
    let mut memory = beginning(given, geometry)?;
    for command in &commands {
        report::perform(&mut memory, command);
    }
    Ok(Tables::of(&memory))
}

/// The memory that a job begins with: cleared (rule 13.5), or that of a board's tables (rule 10.6).
fn beginning(given: &JobGiven, geometry: Geometry) -> Result<Memory, Ended> {
    let Some(folder) = &given.on else {
        return Ok(Memory::new(geometry)?);
    };
    let board = Tables::read(geometry, folder)?;
    let resumed = Memory::resumed(geometry, board.store.clone(), board.indicators.clone());
    let refusal = match resumed {
        Ok(memory) => return Ok(memory),
        Err(refusal) => refusal,
    };
    let folder = shown(folder);
    let first = format!("{folder}: nothing is run on these tables, {refusal}");
    let wrong = faults(&board)?;
    let lines: Vec<String> = once(first).chain(wrong.lines(1)).collect();
    Err(Ended {
        status: 1,
        what: Some(lines.join("\n")),
    })
}

fn compare(given: &JobGiven, folder: &Path, most: usize) -> Result<(), Ended> {
    let model = tables_after(given)?;
    let board = Tables::read(model.geometry, folder)?;
    let wrong = differences(&model, &board);
    match (wrong.count(), board.words()) {
        (0, words) => Ok(print([format!("equal, {words} words")])?),
        (count, words) => print_wrong(&wrong, most, format!("{count} of {words} words differ")),
    }
}

/// The verdict is the library's. What is wrong is looked for only where that is a refusal.
fn judge(geometry: Geometry, folder: &Path, most: usize) -> Result<(), Ended> {
    let board = Tables::read(geometry, folder)?;
    let words = board.words();
    if geometry.resume(&board.store, &board.indicators).is_ok() {
        return Ok(print([format!("sound, {words} words")])?);
    }
    let wrong = faults(&board)?;
    let count = wrong.count();
    let last = format!("no history leaves these tables: {count} of {words} words are wrong");
    print_wrong(&wrong, most, last)
}

/// Prints so many of the words that are wrong, and what they come to.
fn print_wrong(wrong: &Wrong, most: usize, last: String) -> Result<(), Ended> {
    print(wrong.lines(most).chain(once(last)))?;
    Err(PRINTED)
}

/// Lines on standard output.
fn print(lines: impl IntoIterator<Item = impl Display>) -> Result<(), String> {
    let printed = write_out(lines.into_iter());
    printed.map_err(|why| format!("camfit: not all was printed: {}", reason(&why)))
}

/// To a file, since the library's own stream passes over an output that takes nothing.
fn write_out(mut lines: impl Iterator<Item = impl Display>) -> io::Result<()> {
    let stream = File::from(io::stdout().as_fd().try_clone_to_owned()?);
    let mut output = BufWriter::with_capacity(1 << 16, stream);
    lines.try_for_each(|line| writeln!(output, "{line}"))?;
    output.flush()
}

/// On standard error. Nobody can be told where that fails too.
fn tell(what: &str) {
    let _ = writeln!(io::stderr(), "{what}");
}
