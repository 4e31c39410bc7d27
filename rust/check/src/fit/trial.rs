//! One run of the program in a folder: what it is given there, and what is right.

use crate::fit::folder::Folder;
use crate::jobs::difference::first_difference;
use std::collections::{BTreeMap, BTreeSet};
use std::path::Path;
use std::process::{Command, Output, Stdio};

/// By their names in the folder.
pub type Files = BTreeMap<String, Vec<u8>>;

pub struct Trial {
    /// In words, for whoever reads of a failure: the geometry, the array or the job, the damage.
    pub what: String,
    pub arguments: Vec<String>,
    pub given: Files,
    pub right: Right,
}

/// What the program has to do. Files that are given and not named here stay as they are, and there
/// are no others then.
#[derive(Default)]
pub struct Right {
    pub status: i32,
    pub printed: String,
    pub written: Files,
    /// What has to stand somewhere on standard error.
    pub said: Vec<String>,
}

impl Right {
    pub fn prints(status: i32, printed: String) -> Right {
        Right {
            status,
            printed,
            ..Right::default()
        }
    }
}

/// An option with its value.
pub fn option(name: &str, value: &str) -> Vec<String> {
    vec![name.to_string(), value.to_string()]
}

/// The words of a call. Options stand anywhere behind the command's name, here at places that the
/// turn gives.
pub fn arguments(
    command: &str,
    operands: &[&str],
    options: &[Vec<String>],
    turn: usize,
) -> Vec<String> {
    let operands = operands.iter().map(|operand| vec![operand.to_string()]);
    let mut words: Vec<Vec<String>> = operands.collect();
    for option in options {
        words.insert(turn % (words.len() + 1), option.clone());
    }
    words.insert(0, vec![command.to_string()]);
    words.concat()
}

impl Trial {
    /// All that is wrong, with the trial in words.
    pub fn judge(&self, program: &Path, folder: &Folder) -> Result<(), String> {
        let wrong = match self.run(program, folder) {
            Ok(wrong) => wrong,
            Err(why) => vec![why],
        };
        match wrong.is_empty() {
            true => Ok(()),
            false => Err(format!(
                "{}\n    camfit{}\n    {}",
                self.what,
                self.words(),
                wrong.join("\n    ")
            )),
        }
    }

    fn words(&self) -> String {
        let words = self.arguments.iter().map(|word| match word.contains(' ') {
            true => format!(" '{word}'"),
            false => format!(" {word}"),
        });
        words.collect()
    }

    fn run(&self, program: &Path, folder: &Folder) -> Result<Vec<String>, String> {
        folder.fill(&self.given)?;
        let output = Command::new(program)
            .args(&self.arguments)
            .current_dir(folder.path())
            .stdin(Stdio::null())
            .output()
            .map_err(|why| format!("{} does not start: {why}", program.display()))?;
        let mut wrong = self.printed_wrong(&output);
        wrong.extend(self.left_wrong(&folder.read()?));
        Ok(wrong)
    }

    fn printed_wrong(&self, output: &Output) -> Vec<String> {
        let mut wrong = Vec::new();
        let (status, right) = (output.status, self.right.status);
        if status.code() != Some(right) {
            wrong.push(format!("it ended with {status}; right is {right}"));
        }
        if let Some((i, differs)) = first_difference(&output.stdout, self.right.printed.as_bytes())
        {
            wrong.push(format!("line {} {differs}", i + 1));
        }
        let said = String::from_utf8_lossy(&output.stderr);
        for part in &self.right.said {
            if !said.contains(part) {
                wrong.push(format!("standard error has no {part:?}"));
            }
        }
        if !wrong.is_empty() && !said.is_empty() {
            wrong.push(format!("standard error is {said:?}"));
        }
        wrong
    }

    /// What is wrong with the files that are in the folder afterwards.
    fn left_wrong(&self, left: &Files) -> Vec<String> {
        let mut right: BTreeMap<&String, &Vec<u8>> = self.given.iter().collect();
        right.extend(&self.right.written);
        let names: BTreeSet<&String> = left.keys().chain(right.keys().copied()).collect();
        let wrong = names.iter().filter_map(|name| {
            let how = match (left.get(*name), right.get(name)) {
                (None, _) => "is missing".to_string(),
                (_, None) => "should not be there".to_string(),
                (Some(left), Some(right)) => {
                    let (i, differs) = first_difference(left, right)?;
                    format!("line {} {differs}", i + 1)
                }
            };
            Some(format!("{name}: {how}"))
        });
        wrong.collect()
    }
}
