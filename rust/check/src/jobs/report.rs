//! What `camrun` prints for a job: rules 14.1 to 14.3 of docs/MEMORY.md. The line of a next-match is
//! that of other programs: no command of a job file is one.

use crate::binary::answer::Answer;
use crate::binary::array::Array;
use crate::binary::subjects;
use crate::coverage::Tally;
use crate::family::{AnyAnswer, AnyCall};
use crate::jobs::job::{Command, Job};
use crate::jobs::{command_subjects, file_subjects};
use std::fmt::Write;

/// The report, every line with its newline. What the job meets is counted on the way.
pub fn report(job: &Job, tally: &mut Tally) -> String {
    file_subjects::of_file(job, tally);
    let g = match job.accepted() {
        Ok(header) => header.geometry,
        Err(number) => return format!("job no {number}\n"),
    };
    let mut text = g.line() + "\n";
    // As after a clear (rule 13.5).
    let mut array = Array::empty(g);
    for (number, command) in job.commands().iter().enumerate() {
        let answer = answer(&mut array, number, command, tally);
        text += &format!("{number} {}\n", items(&answer));
    }
    text
}

/// 8 comes before anything that the call itself may be refused for (rule 13.7).
fn answer(array: &mut Array, number: usize, command: &Command, tally: &mut Tally) -> Answer {
    let g = array.geometry();
    let Some(call) = command.call(&g) else {
        let answer = Answer::Refused(8);
        tally.count(
            &g,
            command.name(),
            answer.label(),
            command_subjects::of_8(&g, command),
        );
        return answer;
    };
    let before = array.clone();
    let answer = array.call(&call);
    let mut met = subjects::of_history(&before, &call, &answer);
    met.extend(command_subjects::of_call(&g, number, &call, &answer));
    tally.count(&g, call.name(), answer.label(), met);
    answer
}

/// What follows the command's number (rule 14.2).
pub fn items(answer: &Answer) -> String {
    match answer {
        Answer::Refused(number) => format!("no {number}"),
        Answer::Cleared => "clear".to_string(),
        Answer::Entry(None) => "was -".to_string(),
        Answer::Entry(Some(pattern)) => format!("was {pattern}"),
        Answer::At {
            address,
            words_read: w,
            entries_compared: c,
        } => format!("at {address} w {w} c {c}"),
        Answer::NoMatch {
            words_read: w,
            entries_compared: c,
        } => format!("none w {w} c {c}"),
        Answer::Next(None) => "none".to_string(),
        Answer::Next(Some(address)) => format!("at {address}"),
        Answer::Matches { matches, hits } => {
            let mut text = format!("hits {hits}");
            for word in matches.iter() {
                write!(text, " {word:016x}").expect("a string takes any text");
            }
            text
        }
    }
}
