//! The tables that a job leaves, in two files beside it: `NAME.store` and `NAME.indicators`, one
//! word to a line, in hexadecimal, word 0 first. They are made from the plain array, to which the
//! library is held too, answers and tables: a core may give every answer and keep other indicators.

use crate::binary::array::Array;
use crate::binary::call::Call;
use crate::binary::{Binary, Tables};
use crate::coverage::Tally;
use crate::family::Histories;
use crate::geometry::Geometry;
use crate::jobs::difference::first_difference;
use crate::jobs::job::Job;
use crate::parts::Counts;
use crate::tables::{INDICATORS, STORE};
use crate::trial::Trial;
use std::ffi::OsStr;
use std::fmt::LowerHex;
use std::fs;
use std::io::Result as Done;
use std::iter::once;
use std::path::{Path, PathBuf};

/// What a file of a table is called behind the job's name: the store, and the indicators.
const ENDINGS: [&str; 2] = ["store", "indicators"];

/// What is done with the tables of the jobs of a folder.
pub enum Task {
    Compare(PathBuf),
    Write(PathBuf),
}

/// Every job counts one, and so does a table that no job leaves.
pub fn run(task: &Task, trace: bool) -> Counts {
    let (folder, of_job): (_, fn(&Path) -> Vec<String>) = match task {
        Task::Compare(folder) => (folder, judge),
        Task::Write(folder) => (folder, write),
    };
    let files = match files_of(folder) {
        Ok(files) => files,
        Err(why) => return told(folder, &[why.to_string()]),
    };
    let mut counts = Counts::default();
    for path in files.iter().filter(|path| ends(path, "job")) {
        if trace {
            println!("{}", path.display());
        }
        counts.add(told(path, &of_job(path)));
    }
    if counts.passed + counts.failed == 0 {
        counts.add(told(folder, &["it has no job".to_string()]));
    }
    for path in files.iter().filter(|path| is_left_by_none(path)) {
        counts.add(told(path, &["no job of this name runs".to_string()]));
    }
    counts
}

fn told(path: &Path, failures: &[String]) -> Counts {
    let mut counts = Counts::default();
    counts.count(failures.is_empty());
    if counts.failed > 0 {
        println!(
            "FAILED, {}\n    {}",
            path.display(),
            failures.join("\n    ")
        );
    }
    counts
}

/// In the order of their names.
fn files_of(folder: &Path) -> Done<Vec<PathBuf>> {
    let entries = fs::read_dir(folder)?.map(|entry| Ok(entry?.path()));
    let mut files = entries.collect::<Done<Vec<PathBuf>>>()?;
    files.sort();
    Ok(files)
}

fn ends(path: &Path, ending: &str) -> bool {
    path.extension() == Some(OsStr::new(ending))
}

fn is_left_by_none(path: &Path) -> bool {
    let runs = || matches!(history(&path.with_extension("job")), Ok(Some(_)));
    ENDINGS.iter().any(|ending| ends(path, ending)) && !runs()
}

/// What is wrong with the files beside a job that runs, and with what the library leaves.
fn judge(path: &Path) -> Vec<String> {
    let history = match history(path) {
        Err(why) => return vec![why],
        Ok(None) => return Vec::new(),
        Ok(Some(history)) => history,
    };
    let texts = texts(&tables_left(&history));
    let files = texts
        .iter()
        .map(|(ending, right)| compare_file(&path.with_extension(ending), right));
    let library = history.judge_history(&mut Tally::default());
    let library = library.map_err(|what| format!("the library: {what}"));
    files.chain(once(library)).filter_map(Result::err).collect()
}

/// Puts the files beside a job that runs; says what cannot be written.
fn write(path: &Path) -> Vec<String> {
    let texts = match history(path) {
        Err(why) => return vec![why],
        Ok(None) => return Vec::new(),
        Ok(Some(history)) => texts(&tables_left(&history)),
    };
    let written = texts.iter().map(|(ending, text)| {
        let file = path.with_extension(ending);
        fs::write(&file, text).map_err(|why| format!("{}: {why}", file.display()))
    });
    written.filter_map(Result::err).collect()
}

/// The calls that a job makes, if it runs: the clear before its commands, then every command that
/// is a call.
fn history(path: &Path) -> Result<Option<Trial<Binary>>, String> {
    let bytes = fs::read(path).map_err(|why| why.to_string())?;
    let job = Job { bytes, pieces: 1 };
    let Ok(header) = job.accepted() else {
        return Ok(None);
    };
    let geometry = header.geometry;
    let commands = job.commands();
    let calls = commands
        .iter()
        .filter_map(|command| command.call(&geometry));
    Ok(Some(Trial {
        geometry,
        before: never_cleared(&geometry),
        calls: once(Call::Clear).chain(calls).collect(),
    }))
}

/// Tables of which every word shows that nobody cleared it.
fn never_cleared(g: &Geometry) -> Tables {
    Tables {
        store: STORE.table(&vec![0; g.depth as usize]),
        indicators: INDICATORS.table(&vec![u64::MAX; g.indicator_words()]),
    }
}

fn tables_left(history: &Trial<Binary>) -> Tables {
    let mut array = Array::empty(history.geometry);
    for call in &history.calls {
        array.call(call);
    }
    Binary::tables_of(&array)
}

fn texts(tables: &Tables) -> [(&'static str, String); 2] {
    let [store, indicators] = ENDINGS;
    [
        (store, lines(&tables.store, 8)),
        (indicators, lines(&tables.indicators, 16)),
    ]
}

fn lines<T: LowerHex>(words: &[T], digits: usize) -> String {
    let lines = words.iter().map(|word| format!("{word:0digits$x}\n"));
    lines.collect()
}

fn compare_file(file: &Path, right: &str) -> Result<(), String> {
    let named = |what| format!("{}: {what}", file.display());
    let text = fs::read(file).map_err(|why| named(why.to_string()))?;
    match first_difference(&text, right.as_bytes()) {
        None => Ok(()),
        Some((word, differs)) => Err(named(format!("word {word} {differs}"))),
    }
}
