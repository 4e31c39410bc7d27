//! The command line.

use crate::text;
use cam::Geometry;
use std::ffi::OsString;
use std::path::PathBuf;

pub const HELP: &str = "\
camfit: a board's tables beside the model's, which the proved library makes

  camfit run [--on DIR] [--any-size] JOB
      print what a right board answers to the calls of a job
  camfit tables [--on DIR] [--any-size] JOB DIR
      write the tables that the job leaves: DIR/store.hex and DIR/indicators.hex
  camfit compare [--on DIR] [--any-size] [--most N] JOB DIR
      compare every word of a board's tables, which were read back after the job into the two files
      of DIR, with the model's; a line for each that differs
  camfit judge [--most N] GEOMETRY DIR
      tell whether any history of calls leaves the tables in DIR; if none does, a line for the first
      word that is wrong. GEOMETRY is: kind N depth N width N set N

  JOB         a text of tools/camjob (see its --help), which may also have lines
              `next ADDRESS PATTERN` (next-match), or a job file. A text may have any geometry and
              any number of commands
  --on DIR    begin with the tables in DIR, if some history leaves them, in place of a clear
  --any-size  lift the limits of size that camrun and camfit have for job files
  --most N    print at most N lines before the last one (compare: all of them; judge: 1)
  --          what follows is no option
  --help      print this

The files are those of $readmemh: words, comments, and @ with the number of the next word, words
and numbers in hexadecimal. Each word must be given once. tables makes DIR if it is not there, and
replaces only files that camfit wrote.
A wrong bit is called stale (1 on the board, 0 in the model), missing (0 on the board, 1 in the
model) or padding (1 on the board, and no set has it).

Exit status: 1 where words differ, no history leaves the tables, or --on refuses them; 2 where the
command line is wrong, a job is stopped as a whole (tables, compare), or something cannot be read or
written; else 0.";

pub enum Task {
    Run {
        job: JobGiven,
    },
    Tables {
        job: JobGiven,
        folder: PathBuf,
    },
    Compare {
        job: JobGiven,
        folder: PathBuf,
        most: usize,
    },
    Judge {
        geometry: Geometry,
        folder: PathBuf,
        most: usize,
    },
    Help,
}

/// A job, and what it is to be run on.
pub struct JobGiven {
    pub file: PathBuf,
    pub on: Option<PathBuf>,
    pub any_size: bool,
}

/// What the words of a command line have said.
#[derive(Default)]
struct Given {
    on: Option<OsString>,
    most: Option<OsString>,
    any_size: bool,
    help: bool,
    names: Vec<OsString>,
}

impl Task {
    pub fn parse(words: Vec<OsString>) -> Result<Task, String> {
        let mut given = Given::read(words.into_iter())?;
        if given.help {
            return Ok(Task::Help);
        }
        if given.names.is_empty() {
            return Err("no command is named: run, tables, compare or judge".to_string());
        }
        let command = given.names.remove(0);
        match command.to_str() {
            Some("run") => given.run(),
            Some("tables") => given.tables(),
            Some("compare") => given.compare(),
            Some("judge") => given.judge(),
            _ => Err(format!(
                "{command:?} is no command: run, tables, compare or judge"
            )),
        }
    }
}

impl Given {
    fn read(mut words: impl Iterator<Item = OsString>) -> Result<Given, String> {
        let mut given = Given::default();
        while let Some(word) = words.next() {
            match word.to_str() {
                Some("--on") => take_value("--on", &mut given.on, words.next())?,
                Some("--most") => take_value("--most", &mut given.most, words.next())?,
                Some("--any-size") => given.any_size = true,
                Some("--help") => given.help = true,
                Some("--") => given.names.extend(words.by_ref()),
                Some(option) if option.starts_with('-') && option != "-" => {
                    return Err(format!("{option:?} is no option"));
                }
                _ => given.names.push(word),
            }
        }
        let mut names = given.names.iter().chain(&given.on);
        match names.any(|name| name.is_empty()) {
            true => Err("one of the names is empty".to_string()),
            false => Ok(given),
        }
    }

    fn run(self) -> Result<Task, String> {
        self.no_most("run")?;
        let [job] = self.names("run", ["JOB"])?;
        let job = self.job(job);
        Ok(Task::Run { job })
    }

    fn tables(self) -> Result<Task, String> {
        self.no_most("tables")?;
        let [job, folder] = self.names("tables", ["JOB", "DIR"])?;
        let job = self.job(job);
        Ok(Task::Tables { job, folder })
    }

    fn compare(self) -> Result<Task, String> {
        let most = self.most(usize::MAX)?;
        let [job, folder] = self.names("compare", ["JOB", "DIR"])?;
        let job = self.job(job);
        Ok(Task::Compare { job, folder, most })
    }

    /// The geometry may be one word in quotes, or its eight.
    fn judge(self) -> Result<Task, String> {
        if self.on.is_some() || self.any_size {
            return Err("judge takes no --on and no --any-size: it needs no job".to_string());
        }
        let most = self.most(1)?;
        let judged = self.names.split_last().and_then(|(folder, words)| {
            let words: Vec<&[u8]> = words.iter().map(|word| word.as_encoded_bytes()).collect();
            Some((PathBuf::from(folder), text::geometry(&words.join(&b' '))?))
        });
        let form = text::form();
        let (folder, geometry) =
            judged.ok_or(format!("judge takes GEOMETRY DIR, and GEOMETRY is {form}"))?;
        Ok(Task::Judge {
            geometry: geometry?,
            folder,
            most,
        })
    }

    fn job(self, file: PathBuf) -> JobGiven {
        JobGiven {
            file,
            on: self.on.map(PathBuf::from),
            any_size: self.any_size,
        }
    }

    fn no_most(&self, command: &str) -> Result<(), String> {
        match self.most {
            Some(_) => Err(format!("{command} takes no --most")),
            None => Ok(()),
        }
    }

    fn most(&self, otherwise: usize) -> Result<usize, String> {
        let Some(word) = &self.most else {
            return Ok(otherwise);
        };
        let digits = word.to_str().filter(|word| !word.is_empty());
        match digits.filter(|digits| digits.bytes().all(|byte| byte.is_ascii_digit())) {
            // There are never more lines than that.
            Some(digits) => Ok(digits.parse().unwrap_or(usize::MAX)),
            None => Err(format!("--most {word:?} is no number")),
        }
    }

    /// The names behind the command, which takes these.
    fn names<const N: usize>(
        &self,
        command: &str,
        wanted: [&str; N],
    ) -> Result<[PathBuf; N], String> {
        let names: Vec<PathBuf> = self.names.iter().map(PathBuf::from).collect();
        names.try_into().map_err(|names: Vec<PathBuf>| {
            let (wanted, given) = (wanted.join(" "), names.len());
            format!("{command} takes {wanted}; names given: {given}")
        })
    }
}

/// Takes the value of an option that has none yet.
fn take_value(
    option: &str,
    old: &mut Option<OsString>,
    value: Option<OsString>,
) -> Result<(), String> {
    let value = value.ok_or(format!("{option} needs a value"))?;
    match old.replace(value) {
        Some(_) => Err(format!("{option} is given a second time")),
        None => Ok(()),
    }
}
