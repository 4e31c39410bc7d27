//! The parts of a run, and what each prints.

use crate::coverage::{Required, Tally};
use crate::family::{Family, Histories};
use crate::generate::{random_history, random_single_call};
use crate::note::note;
use crate::options::{Names, Options};
use crate::random::Random;
use crate::reduce::{reduce, Fails};
use crate::texts;
use crate::trial::Trial;
use crate::watch::{apart, failure_here, Death, Failure};
use std::cell::RefCell;
use std::fmt;
use std::time::{Duration, Instant};

/// After so many failures of a part the rest are only counted.
pub const SHOWN_FAILURES: u64 = 3;

/// A trial that is not cut down by then is printed as far as it is.
const LONGEST_CUTTING: Duration = Duration::from_secs(20);

#[derive(Clone, Copy, Default)]
pub struct Counts {
    pub passed: u64,
    pub failed: u64,
}

impl Counts {
    /// All that was counted in this run.
    pub fn so_far() -> Counts {
        let (passed, failed) = note().counts();
        Counts { passed, failed }
    }

    pub fn add(&mut self, other: Counts) {
        self.passed += other.passed;
        self.failed += other.failed;
    }

    pub fn count(&mut self, passed: bool) {
        note().count(passed);
        match passed {
            true => self.passed += 1,
            false => self.failed += 1,
        }
    }
}

impl fmt::Display for Counts {
    fn fmt(&self, f: &mut fmt::Formatter) -> fmt::Result {
        write!(f, "{} passed, {} failed", self.passed, self.failed)
    }
}

/// A part made of random trials, whatever these are.
pub trait Part {
    fn names(&self) -> Names;
    /// Whether all is there that it needs, before anything runs.
    fn ready(&self, _options: &Options) -> Result<(), String> {
        Ok(())
    }
    fn run_all(&self, options: &Options) -> Counts;
    fn run_one(&self, options: &Options, index: u64) -> Counts;
    /// Prints the trial in which the core died.
    fn show_death(&self, options: &Options, death: &Death);
}

pub struct RandomPart<T> {
    pub names: Names,
    pub make: fn(&mut Random) -> T,
    /// What is a trial of this part, however it was made or cut down.
    pub admits: fn(&T) -> bool,
    pub judge: fn(&T, &Options, &mut Tally) -> Result<(), String>,
    pub cut: fn(T, Fails<T>) -> T,
    /// What is printed of the trial of this seed and number, which failed.
    pub text: fn(&T, u64, u64) -> String,
    /// A call of the trial, by its number from 1.
    pub call: fn(&T, u64) -> Option<String>,
    /// The trial as a text for `tools/camjob` under a heading, where it can be one.
    pub job: fn(&str, &T, &Failure) -> Option<String>,
    pub required: Required,
}

pub fn histories<F: Histories>() -> Box<dyn Part> {
    Box::new(RandomPart::<Trial<F>> {
        names: F::HISTORIES,
        make: random_history,
        admits: Trial::is_history,
        judge: |trial, _, tally| trial.judge_history(tally),
        cut: reduce,
        text: |trial, _, _| trial.to_string(),
        call: Trial::call_text,
        job: texts::of_history,
        required: F::OF_HISTORIES,
    })
}

pub fn single_calls<F: Family>() -> Box<dyn Part> {
    Box::new(RandomPart::<Trial<F>> {
        names: F::SINGLE_CALLS,
        make: random_single_call,
        admits: Trial::is_single_call,
        judge: |trial, _, tally| trial.judge_single_call(tally),
        cut: reduce,
        text: |trial, _, _| trial.to_string(),
        call: Trial::call_text,
        // No job has such tables.
        job: |_, _, _| None,
        required: F::OF_SINGLE_CALLS,
    })
}

impl<T> Part for RandomPart<T> {
    fn names(&self) -> Names {
        self.names
    }

    fn run_all(&self, options: &Options) -> Counts {
        let mut counts = Counts::default();
        let mut tally = Tally::default();
        for index in 0..options.trials(&self.names) {
            let shown = counts.failed < SHOWN_FAILURES;
            counts.count(self.run_trial(options, index, &mut tally, shown));
        }
        note().end_part();
        println!("{}: {counts} (seed {})", self.names.trials, options.seed);
        if !options.brief {
            tally.print(&self.required);
        }
        let missing = tally.missing(&self.required);
        counts.count(missing.is_empty());
        for subject in missing {
            println!("FAILED, never met by the {}: {subject}", self.names.trials);
        }
        counts
    }

    fn run_one(&self, options: &Options, index: u64) -> Counts {
        let mut counts = Counts::default();
        counts.count(self.run_trial(options, index, &mut Tally::default(), true));
        counts
    }

    fn show_death(&self, options: &Options, death: &Death) {
        let index = death.place.index;
        let trial = self.trial(options, index);
        let call = death.place.calls;
        let what = death.text((self.call)(&trial, call));
        println!(
            "In {} {index} of seed {} {what}",
            self.names.trial, options.seed
        );
        let failure = Failure { what, call };
        if death.late {
            self.print(options, index, &trial, &failure);
        } else if let Err(failure) = self.judge_apart(options, &trial) {
            self.show(options, index, trial, failure);
        } else {
            println!("Alone this trial passes; an earlier one may have done the harm.");
            self.print_and_keep(options, index, &trial, &failure);
        }
    }
}

impl<T> RandomPart<T> {
    fn run_trial(&self, options: &Options, index: u64, tally: &mut Tally, shown: bool) -> bool {
        let trial = self.trial(options, index);
        if options.trace {
            println!("{} {index}", self.names.only);
        }
        note().begin_trial(self.names.number, index);
        let outcome = (self.judge)(&trial, options, tally);
        let passed = outcome.is_ok();
        if let (Err(what), true) = (outcome, shown) {
            self.show(options, index, trial, failure_here(what));
        }
        passed
    }

    fn trial(&self, options: &Options, index: u64) -> T {
        let mut random = Random::of_trial(options.seed, self.names.number, index);
        let trial = (self.make)(&mut random);
        assert!((self.admits)(&trial), "the generator made another thing");
        trial
    }

    fn judge_apart(&self, options: &Options, trial: &T) -> Result<(), Failure> {
        let judge = || (self.judge)(trial, options, &mut Tally::default());
        apart(options, judge, |call| (self.call)(trial, call))
    }

    /// Prints the shortest trial that the failing one can be cut down to in a bounded time, and
    /// what came of it. It is not run once more for that: a program may fail now and then.
    fn show(&self, options: &Options, index: u64, trial: T, failure: Failure) {
        let failure = RefCell::new(failure);
        let end = Instant::now() + LONGEST_CUTTING;
        let fails = |trial: &T| {
            if Instant::now() >= end || !(self.admits)(trial) {
                return false;
            }
            let outcome = self.judge_apart(options, trial);
            outcome.map_err(|new| failure.replace(new)).is_err()
        };
        let cut = (self.cut)(trial, &fails);
        self.print_and_keep(options, index, &cut, &failure.borrow());
    }

    fn print(&self, options: &Options, index: u64, trial: &T, failure: &Failure) {
        let seed = options.seed;
        println!(
            "FAILED, {} (--seed {seed} {} {index})",
            self.names.trials, self.names.only
        );
        println!("    {}", (self.text)(trial, seed, index));
        println!("    {}", failure.what);
    }

    fn print_and_keep(&self, options: &Options, index: u64, trial: &T, failure: &Failure) {
        self.print(options, index, trial, failure);
        let (seed, one) = (options.seed, self.names.trial);
        let heading = format!("From {one} {index} of seed {seed}.");
        let text = (self.job)(&heading, trial, failure);
        let name = format!("{one} {index}").replace(' ', "-");
        texts::keep(options, &name, text);
    }
}
