//! What is printed for a job: section 14 of docs/MEMORY.md. Every answer is the library's, but for
//! number 8, by which no call is made.

use crate::job::Command;
use cam::{AllMatch, FirstMatch, Memory, Refusal};
use std::fmt::Write;

/// What a stopped command gives (rule 13.7).
const NO_OPERATION: u32 = 8;

/// Makes the call of a command, and gives what follows the command's number in its line (rule
/// 14.2).
pub fn perform(memory: &mut Memory, command: &Command) -> String {
    let answer = match *command {
        Command::Write(address, pattern) => memory.write(address, pattern).map(entry),
        Command::Erase(address) => memory.erase(address).map(entry),
        Command::FirstMatch(key) => memory.first_match(key).map(first_match),
        Command::AllMatch(key) => memory.all_match(key).map(all_match),
        Command::Read(address) => memory.read(address).map(entry),
        Command::Clear => memory.clear().map(|()| "clear".to_string()),
        Command::NextMatch(address, key) => memory.next_match(address, key).map(found),
        Command::Unknown => return stopped(NO_OPERATION),
    };
    answer.unwrap_or_else(|refusal: Refusal| stopped(refusal.number()))
}

fn stopped(number: u32) -> String {
    format!("no {number}")
}

fn entry(entry: Option<u32>) -> String {
    match entry {
        Some(pattern) => format!("was {pattern}"),
        None => "was -".to_string(),
    }
}

fn found(address: Option<u32>) -> String {
    match address {
        Some(address) => format!("at {address}"),
        None => "none".to_string(),
    }
}

fn first_match(answer: FirstMatch) -> String {
    let (w, c) = (answer.words_read, answer.entries_compared);
    format!("{} w {w} c {c}", found(answer.address))
}

fn all_match(answer: AllMatch) -> String {
    let mut text = format!("hits {}", answer.hits);
    for word in answer.words {
        write!(text, " {word:016x}").expect("a string takes any text");
    }
    text
}
