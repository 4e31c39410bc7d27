//! The command line.

use crate::jobs::tables::Task;
use crate::watch::Limits;
use std::collections::BTreeMap;
use std::path::{Path, PathBuf};
use std::time::Duration;

/// How a part of random trials is called, and how many it has.
#[derive(Clone, Copy)]
pub struct Names {
    pub trials: &'static str,
    pub trial: &'static str,
    /// The option that says how many trials there are.
    pub count: &'static str,
    /// The option that runs one trial alone.
    pub only: &'static str,
    /// The number of trials where none is asked for.
    pub default: u64,
    /// The same in a quick run.
    pub quick: u64,
    /// Keeps the generators of two parts apart.
    pub number: u64,
}

const FIRST_LINES: &str = "\
check: runs the library and the program camrun beside a second writing of docs/MEMORY.md

  --seed N           seed of the random trials (default 1)";

const LAST_LINES: &str = "
  --camrun PATH      the program camrun (default target/bin/camrun, from the root of the repository)
  --tables FOLDER    compare the tables beside each job of a folder, and those that the library
                     leaves after the same calls, with the right ones, and do nothing else; each job
                     counts one, and so does a table that no job leaves
  --write-tables FOLDER
                     write the right ones: NAME.store and NAME.indicators beside each NAME.job that
                     is not stopped whole
  --camfit PATH      run the program camfit on boards, small and large, hold its standard output,
                     its status and its files to the second writing, and do nothing else; each run
                     counts one
  --trace            print the name or number of each trial before it runs, to find one that crashes
  --quick            a tenth of the random trials, and no job, where no number is given
  --brief            do not print how often each thing was met
  --texts FOLDER     write the failing histories that are printed as texts for tools/camjob
  --watch N          run the core in a process of its own; a call of over N seconds is a failure
  --limit N          with --watch, stop a run of over N seconds (default 600)
  --help             print this

Each case, vector, history, single call, resume and job counts one, each of the two lengths and the
listing that camrun prints too, and so does, for each random part, that it met all it is made for. A
few trials may not, which is then a failure. A job that fails is cut down and put into a file, whose
name is printed. With --jobs 0 the program camrun is not needed.
The exit status is 0 when nothing failed. The last line is 'N passed, M failed'.";

/// The text of `--help`, with the options of these parts.
pub fn help(parts: &[Names]) -> String {
    let line = |option: String, what: String| format!("\n  {option:<18} {what}");
    let count = |part: &Names| {
        let what = format!("number of {} (default {})", part.trials, part.default);
        line(format!("{} N", part.count), what)
    };
    let only = |part: &Names| {
        let what = format!("run {} I of this seed and nothing else", part.trial);
        line(format!("{} I", part.only), what)
    };
    let counts: String = parts.iter().map(count).collect();
    let onlys: String = parts.iter().map(only).collect();
    format!("{FIRST_LINES}{counts}{onlys}{LAST_LINES}")
}

pub struct Options {
    pub seed: u64,
    /// What the options of parts are given.
    of_parts: BTreeMap<&'static str, u64>,
    /// Whether one trial alone is asked for.
    pub only_one: bool,
    pub camrun: PathBuf,
    pub tables: Option<Task>,
    /// The program to hold to the second writing, where nothing else is asked for.
    pub camfit: Option<PathBuf>,
    pub trace: bool,
    pub quick: bool,
    pub brief: bool,
    /// Where failing histories are written.
    pub texts: Option<PathBuf>,
    /// How long a call may take of a core in a process of its own.
    watch: Option<Duration>,
    /// How long it may take in all.
    limit: Duration,
    pub help: bool,
}

impl Default for Options {
    fn default() -> Options {
        Options {
            seed: 1,
            of_parts: BTreeMap::new(),
            only_one: false,
            camrun: PathBuf::from("target/bin/camrun"),
            tables: None,
            camfit: None,
            trace: false,
            quick: false,
            brief: false,
            texts: None,
            watch: None,
            limit: Duration::from_secs(600),
            help: false,
        }
    }
}

impl Options {
    pub fn parse(
        parts: &[Names],
        mut words: impl Iterator<Item = String>,
    ) -> Result<Options, String> {
        let mut options = Options::default();
        while let Some(word) = words.next() {
            let mut value = || words.next().ok_or(format!("{word} needs a value"));
            let mut number = || {
                let value = value()?;
                value.parse().map_err(|_| format!("{value} is no number"))
            };
            match word.as_str() {
                "--seed" => options.seed = number()?,
                // A name alone would be looked for on the path.
                "--camrun" => options.camrun = Path::new(".").join(value()?),
                "--tables" => options.tables = Some(Task::Compare(value()?.into())),
                "--write-tables" => options.tables = Some(Task::Write(value()?.into())),
                "--camfit" => options.camfit = Some(value()?.into()),
                "--trace" => options.trace = true,
                "--quick" => options.quick = true,
                "--brief" => options.brief = true,
                "--texts" => options.texts = Some(PathBuf::from(value()?)),
                "--watch" => options.watch = Some(Duration::from_secs(number()?)),
                "--limit" => options.limit = Duration::from_secs(number()?),
                "--help" => options.help = true,
                _ => {
                    let option = of_a_part(parts, &word).ok_or(format!("{word} is no option"))?;
                    options.of_parts.insert(option, number()?);
                }
            }
        }
        let only = |names: &Names| options.only(names).is_some();
        options.only_one = parts.iter().any(only);
        Ok(options)
    }

    /// How many trials a part has.
    pub fn trials(&self, names: &Names) -> u64 {
        let asked = self.of_parts.get(names.count);
        let otherwise = if self.quick {
            names.quick
        } else {
            names.default
        };
        asked.copied().unwrap_or(otherwise)
    }

    /// The limits of a core, where it is to run in a process of its own.
    pub fn limits(&self) -> Option<Limits> {
        let whole = self.limit;
        self.watch.map(|call| Limits { call, whole })
    }

    /// The one trial of a part that is asked for.
    pub fn only(&self, names: &Names) -> Option<u64> {
        self.of_parts.get(names.only).copied()
    }
}

fn of_a_part(parts: &[Names], word: &str) -> Option<&'static str> {
    let options = parts.iter().flat_map(|names| [names.count, names.only]);
    options.into_iter().find(|&option| option == word)
}
