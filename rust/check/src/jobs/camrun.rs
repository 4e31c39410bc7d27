//! The program `camrun`, run as a child with a job on its standard input, and held to the report.

use crate::coverage::Tally;
use crate::geometry::{geometry, SEGMENTED};
use crate::jobs::difference::first_difference;
use crate::jobs::job::{Command, Job};
use crate::jobs::report::report;
use crate::options::Options;
use crate::reduce::{remove_runs, Fails};
use std::fs;
use std::io::{ErrorKind, Result as Written, Write};
use std::path::Path;
use std::process::{ChildStdin, Command as Program, Stdio};
use std::thread;
use std::time::Duration;

/// Between the pieces of a job, so that the program reads them one by one.
const PAUSE: Duration = Duration::from_micros(500);

/// What `camrun` prints for examples/listing.txt.
const LISTING: &str = "\
kind 2 depth 8 width 2 set 2
0 was -
1 was -
2 was 1
3 at 2 w 1 c 2
4 at 3 w 1 c 2
5 hits 1 0000000000000004
6 was 1
7 none w 1 c 0
8 no 3
9 no 4
";

pub fn is_there(program: &Path) -> Result<(), String> {
    match program.is_file() {
        true => Ok(()),
        false => Err(format!(
            "{} is not there.\nRun `tools/build camrun` at the root of the repository first, \
             or name the program with --camrun.",
            program.display()
        )),
    }
}

/// The program prints the report, every byte of it and no other, and ends with status 0.
pub fn judge(job: &Job, options: &Options, tally: &mut Tally) -> Result<(), String> {
    let right = report(job, tally);
    compare(job, &run(&options.camrun, job)?, &right)
}

/// The job of examples/listing.txt. Its text holds for the report of this program too.
pub fn judge_listing(options: &Options) -> Result<(), String> {
    let fields = [
        (1, 3, 1),
        (1, 2, 1),
        (1, 3, 2),
        (3, 0, 1),
        (3, 0, 2),
        (4, 0, 1),
        (2, 2, 0),
        (3, 0, 1),
        (1, 8, 0),
        (3, 0, 4),
    ];
    let commands = fields.map(|(operation, address, pattern)| Command {
        operation,
        address,
        pattern,
    });
    let job = Job::new(geometry(SEGMENTED, 8, 2, 2), &[], &commands, &[]);
    let own = report(&job, &mut Tally::default());
    compare(&job, own.as_bytes(), LISTING).map_err(|what| format!("this program's own: {what}"))?;
    compare(&job, &run(&options.camrun, &job)?, LISTING)
}

/// Takes commands out of a failing job until none can go.
pub fn cut(mut job: Job, fails: Fails<Job>) -> Job {
    let count = |job: &Job| job.commands().len();
    while remove_runs(&mut job, fails, count, Job::remove) {}
    job
}

/// The job in words, and the file that it is kept in.
pub fn keep(job: &Job, seed: u64, index: u64) -> String {
    let path = std::env::temp_dir().join(format!("job-{seed}-{index}"));
    match fs::write(&path, &job.bytes) {
        Ok(()) => format!("{job}\n    the file is {}", path.display()),
        Err(why) => format!("{job}\n    no file {}: {why}", path.display()),
    }
}

/// What the program prints. The job is written while the report is read, so that neither waits for
/// the other when a pipe is full.
fn run(program: &Path, job: &Job) -> Result<Vec<u8>, String> {
    let mut child = Program::new(program)
        .stdin(Stdio::piped())
        .stdout(Stdio::piped())
        .spawn()
        .map_err(|why| format!("{} does not start: {why}", program.display()))?;
    let input = child.stdin.take().expect("it is a pipe");
    let (written, output) = thread::scope(|scope| {
        let writer = scope.spawn(|| write_pieces(input, job));
        let output = child.wait_with_output();
        (writer.join().expect("the writer ends"), output)
    });
    let output = output.map_err(|why| format!("its report cannot be read: {why}"))?;
    match written {
        // It need not read what is left of a file that is too long.
        Err(why) if why.kind() != ErrorKind::BrokenPipe => {
            Err(format!("the job cannot be written: {why}"))
        }
        _ if !output.status.success() => Err(format!("it ended with {}", output.status)),
        _ => Ok(output.stdout),
    }
}

fn write_pieces(mut input: ChildStdin, job: &Job) -> Written<()> {
    let length = job.bytes.len().div_ceil(job.pieces).max(1);
    for (i, piece) in job.bytes.chunks(length).enumerate() {
        if i > 0 {
            thread::sleep(PAUSE);
        }
        input.write_all(piece)?;
    }
    Ok(())
}

/// The first line that differs.
fn compare(job: &Job, printed: &[u8], right: &str) -> Result<(), String> {
    let Some((i, differs)) = first_difference(printed, right.as_bytes()) else {
        return Ok(());
    };
    let command = i.checked_sub(1).and_then(|number| job.notation(number));
    let command = command.map_or(String::new(), |command| format!(" ({command})"));
    Err(format!("line {}{command} {differs}", i + 1))
}
