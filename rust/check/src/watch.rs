//! Runs the core in a process of its own, so that one that crashes or never comes back is told like
//! any other failure.

use crate::note::{note, Place};
use crate::options::Options;
use crate::system::{end_with_reader, flush, silence, Child};
use std::os::unix::process::ExitStatusExt;
use std::process::ExitStatus;
use std::thread::sleep;
use std::time::{Duration, Instant};

/// How long a core may take.
#[derive(Clone, Copy)]
pub struct Limits {
    /// For one call.
    pub call: Duration,
    /// For everything.
    pub whole: Duration,
}

/// What a judge said, and at which call of its trial: from 1, or 0 where all calls were right and
/// the tables at the end are not.
pub struct Failure {
    pub what: String,
    pub call: u64,
}

/// How the core ended the process that it ran in, and where.
pub struct Death {
    /// In words, without the place.
    pub how: String,
    pub place: Place,
    /// Whether only the whole run was too long, and no call is known to hang.
    pub late: bool,
}

impl Death {
    /// With the call, which is given in words where it is known.
    pub fn text(&self, call: Option<String>) -> String {
        let Place {
            calls,
            inside,
            walking,
            ..
        } = self.place;
        let named = call.map_or(String::new(), |call| format!(", {call}"));
        let place = match (calls, inside) {
            (0, _) => String::new(),
            (_, true) if walking => format!(" in a walk after call {calls}{named}"),
            (_, true) => format!(" in call {calls}{named}"),
            (_, false) if self.late => String::new(),
            (_, false) => {
                format!(" after call {calls}{named}; a call may have written outside its tables")
            }
        };
        format!("{}{place}", self.how)
    }
}

/// Runs the work to its end in a process of its own.
pub fn run(limits: Limits, work: impl FnOnce()) -> Result<(), Death> {
    end_with_reader();
    in_child(limits, || {
        work();
        flush();
    })
}

/// Judges a trial, where the run is watched in a process of its own.
pub fn apart(
    options: &Options,
    judge: impl FnOnce() -> Result<(), String>,
    call_text: impl Fn(u64) -> Option<String>,
) -> Result<(), Failure> {
    let Some(limits) = options.limits() else {
        return judge().map_err(failure_here);
    };
    // The process that watches this one must not lose patience before this one does.
    let limits = Limits {
        call: limits.call / 4,
        ..limits
    };
    note().say("");
    let judge = || {
        silence();
        note().say(&judge().err().unwrap_or_default());
    };
    in_child(limits, judge).map_err(|death| {
        let call = death.place.calls;
        let what = death.text(call_text(call));
        Failure { what, call }
    })?;
    match note().said() {
        what if what.is_empty() => Ok(()),
        what => Err(failure_here(what)),
    }
}

/// What the judge said just now.
pub fn failure_here(what: String) -> Failure {
    let call = note().place().calls;
    Failure { what, call }
}

fn in_child(limits: Limits, work: impl FnOnce()) -> Result<(), Death> {
    note().set_done(false);
    let child = Child::start(|| {
        work();
        note().set_done(true);
    });
    let how = wait(&child, limits);
    let done = note().is_done();
    note().set_done(false);
    match how {
        _ if done => Ok(()),
        Ended::Itself(status) => Err(death(ending(status), false)),
        Ended::Stalled => Err(death(stalled(limits.call), false)),
        Ended::Late => Err(death(late(limits.whole), true)),
    }
}

enum Ended {
    Itself(ExitStatus),
    Stalled,
    Late,
}

/// Looks again and again, first after a short while: a child for one trial ends soon.
fn wait(child: &Child, limits: Limits) -> Ended {
    let begun = Instant::now();
    let mut pause = Duration::from_micros(50);
    let mut last = (note().ticks(), begun);
    loop {
        if let Some(status) = child.ended() {
            return Ended::Itself(status);
        }
        let now = Instant::now();
        if note().ticks() != last.0 {
            last = (note().ticks(), now);
        }
        let stalled = now - last.1 >= limits.call;
        if stalled || now - begun >= limits.whole {
            child.stop();
            return if stalled { Ended::Stalled } else { Ended::Late };
        }
        sleep(pause);
        pause = (pause * 2).min(Duration::from_millis(10));
    }
}

fn death(how: String, late: bool) -> Death {
    let place = note().place();
    Death { how, place, late }
}

fn stalled(limit: Duration) -> String {
    let seconds = limit.as_secs_f32();
    format!("the core hangs ({seconds} seconds without an answer)")
}

fn late(limit: Duration) -> String {
    format!("the run was not over in {} seconds", limit.as_secs_f32())
}

fn ending(status: ExitStatus) -> String {
    match (status.signal(), status.code()) {
        (Some(signal), _) => format!("the core crashed (signal {signal}{})", name(signal)),
        // The status of a program that panics.
        (_, Some(101)) => "the checking program stopped".to_string(),
        (_, code) => format!("the core ended the program (status {})", code.unwrap_or(0)),
    }
}

fn name(signal: i32) -> &'static str {
    match signal {
        4 => ", no such instruction",
        6 => ", it aborted",
        7 | 11 => ", it used memory that is not there",
        8 => ", a division by 0",
        9 => ", it was killed",
        _ => "",
    }
}
