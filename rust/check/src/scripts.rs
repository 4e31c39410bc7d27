//! Parts made of written-out examples.

use crate::family::Histories;
use crate::note::note;
use crate::options::Options;
use crate::parts::{Counts, SHOWN_FAILURES};
use crate::script::Script;
use crate::texts;
use crate::watch::{failure_here, Death, Failure};

/// A part made of written-out examples, whatever the family of their calls.
pub trait WrittenOut {
    fn number(&self) -> u64;
    fn run(&self, options: &Options) -> Counts;
    /// Prints the script in which the core died.
    fn show_death(&self, options: &Options, death: &Death);
}

pub struct Scripts<F: Histories> {
    pub name: &'static str,
    /// Its number in the note, which no other part has.
    pub number: u64,
    pub scripts: Vec<Script<F>>,
}

impl<F: Histories> WrittenOut for Scripts<F> {
    fn number(&self) -> u64 {
        self.number
    }

    fn run(&self, options: &Options) -> Counts {
        let mut counts = Counts::default();
        for (script, index) in self.scripts.iter().zip(0..) {
            if options.trace {
                println!("{}", script.name);
            }
            note().begin_trial(self.number, index);
            let outcome = script.run().map_err(failure_here);
            let shown = counts.failed < SHOWN_FAILURES;
            counts.count(outcome.is_ok());
            match outcome {
                Ok(()) => {}
                Err(failure) if shown => show(options, script, &failure),
                Err(_) => println!("FAILED, {}", script.name),
            }
        }
        note().end_part();
        println!("{}: {counts}", self.name);
        counts
    }

    fn show_death(&self, options: &Options, death: &Death) {
        let script = &self.scripts[death.place.index as usize];
        let call = death.place.calls;
        let what = death.text(script.call_text(call));
        println!("In {} {what}", script.name);
        show(options, script, &Failure { what, call });
    }
}

fn show<F: Histories>(options: &Options, script: &Script<F>, failure: &Failure) {
    let (name, geometry) = (script.name, script.geometry);
    println!("FAILED, {name} ({geometry})\n    {}", failure.what);
    let text = script.history().and_then(|trial| {
        let heading = format!("The calls of {name}.");
        texts::of_history(&heading, &trial, failure)
    });
    texts::keep(options, &file_name(name), text);
}

/// The name without what a shell or `make` would take for something else.
fn file_name(name: &str) -> String {
    let words = name.split(|c: char| !c.is_ascii_alphanumeric() && c != '.');
    let words: Vec<&str> = words.filter(|word| !word.is_empty()).collect();
    format!("case-{}", words.join("-"))
}
