//! Failing histories as texts for `tools/camjob`, so that `make run` shows what a right core
//! answers to them.

use crate::family::{AnyAnswer, AnyCall, Family, Histories, InJob, ADDRESS};
use crate::geometry::Geometry;
use crate::jobs;
use crate::options::Options;
use crate::trial::Trial;
use crate::watch::Failure;
use std::collections::BTreeSet;
use std::fs;

/// So many patterns of a history are asked for at its end.
const MOST_ASKED: usize = 8;

/// Puts a text into the folder that is asked for, if one is, and prints its name.
pub fn keep(options: &Options, name: &str, text: Option<String>) {
    let (Some(folder), Some(text)) = (&options.texts, text) else {
        return;
    };
    let path = folder.join(format!("{name}.txt"));
    let kept = fs::create_dir_all(folder).and_then(|()| fs::write(&path, text));
    match kept {
        Ok(()) => println!("    its text: {}", path.display()),
        Err(why) => println!("    no text {}: {why}", path.display()),
    }
}

/// The text of a history that fails, with comments that say how, if a job can make its calls. The
/// heading says which it is.
pub fn of_history<F: Histories>(
    heading: &str,
    trial: &Trial<F>,
    failure: &Failure,
) -> Option<String> {
    let mut lines = vec![heading.to_string()];
    match failure.call {
        0 => lines.push(format!("Every answer was right, but {}.", failure.what)),
        _ => lines.push(format!("{}.", failure.what)),
    }
    lines.extend(before(trial));
    let mut commands = commands(trial, failure)?;
    if failure.call == 0 {
        commands += &questions(trial);
    }
    lines.extend(stop(&trial.geometry, &commands));
    let comments: String = lines.iter().map(|line| comment(line)).collect();
    Some(format!("{comments}{}\n{commands}", trial.geometry.line()))
}

/// A comment of one line, whatever the words.
fn comment(words: &str) -> String {
    format!("# {}\n", words.replace('\n', " "))
}

/// What the tables held that no job can have before its first command.
fn before<F: Family>(trial: &Trial<F>) -> Option<String> {
    const SHOWN: usize = 3;
    let words = trial.tables_before();
    let shown = words[..words.len().min(SHOWN)].join(", ");
    let more = words.len().saturating_sub(SHOWN);
    let more = if more > 0 {
        format!(" and {more} more")
    } else {
        String::new()
    };
    (!words.is_empty()).then(|| format!("Before the first clear: {shown}{more}."))
}

/// Why camrun would stop this job whole, if it would.
fn stop(g: &Geometry, commands: &str) -> Option<String> {
    let lines = commands.lines().filter(|line| !line.starts_with('#'));
    match jobs::stop(g, lines.count() as u32)? {
        7 => Some("camrun stops this job with 7: it has too many commands.".to_string()),
        number => Some(format!(
            "camrun stops this job with {number}: its tables are too large."
        )),
    }
}

/// A line for each call, with a remark at the one that went wrong. Commands are counted from 0, as
/// in a report.
fn commands<F: Histories>(trial: &Trial<F>, failure: &Failure) -> Option<String> {
    let mut array = trial.first_array().expect("it is a history");
    let mut text = String::new();
    let mut command = 0;
    for (call, number) in trial.calls.iter().zip(1..) {
        let wrong = number == failure.call;
        let right = F::answer(&mut array, call).code();
        let line = match call.in_job() {
            // In a history only an all-match gets this number, for the length of its match word.
            InJob::Command(_) if right == 2 => Err("a job's match word always fits"),
            InJob::Command(line) => Ok(line),
            InJob::Nothing(why) => Err(why),
            InJob::NoJob => return None,
        };
        match line {
            Ok(line) => text += &line,
            Err(why) => {
                let (call, right) = (trial.notation(call), call.describe(right));
                text += &comment(&no_command(why, &call, &right, wrong));
                continue;
            }
        }
        if wrong {
            text += &format!("    # wrong here; the right line begins with {command}");
        }
        text += "\n";
        command += 1;
    }
    Some(text)
}

/// The call and its right answer, where a job makes no such call. What comes after it is answered
/// as if it had been made, for it writes no table.
fn no_command(why: &str, call: &str, right: &str, wrong: bool) -> String {
    let here = if wrong { ", wrong here" } else { "" };
    format!("No command, as {why}: {call}; right is {right}{here}")
}

/// Matches of the patterns that were written, as a wrong word of the tables leads to wrong answers
/// later.
fn questions<F: Histories>(trial: &Trial<F>) -> String {
    let written = trial.calls.iter().filter(|call| call.writes_tables());
    let mut patterns: BTreeSet<u32> = written.flat_map(patterns_of).collect();
    patterns.retain(|&pattern| pattern < trial.geometry.patterns());
    if patterns.is_empty() {
        return String::new();
    }
    let ask = |pattern: &u32| format!("first {pattern}\nall {pattern}\n");
    let asked: String = patterns.iter().take(MOST_ASKED).map(ask).collect();
    comment("Not part of the history: what matches must find after it.") + &asked
}

fn patterns_of(call: &impl AnyCall) -> Vec<u32> {
    let mut call = call.clone();
    let numbers = call.numbers().into_iter();
    let patterns = numbers.filter(|&(sort, _)| sort != ADDRESS);
    patterns.map(|(_, pattern)| *pattern).collect()
}
