//! What the random trials met. A run that never met one of its subjects has tested nothing of it,
//! and fails.

use crate::geometry::Geometry;
use crate::subjects::Subject;
use std::collections::BTreeMap;

/// What must be met: the answers of each call, in every kind where they can occur, and the
/// subjects. A job is answered as a call is.
pub struct Required {
    pub answers: &'static [(&'static str, &'static [&'static str])],
    /// Whether an answer can occur in a kind.
    pub occurs: fn(&'static str, u32) -> bool,
    pub subjects: &'static [&'static [Subject]],
}

/// How often each answer of each call came in each kind, and how often each subject was met.
#[derive(Default)]
pub struct Tally {
    answers: BTreeMap<(u32, &'static str, &'static str), u64>,
    subjects: BTreeMap<Subject, u64>,
}

impl Tally {
    /// An answer to a call of this name, and what that call met.
    pub fn count(
        &mut self,
        g: &Geometry,
        call: &'static str,
        answer: &'static str,
        met: Vec<Subject>,
    ) {
        self.meet_in(g.kind, call, answer);
        self.meet(met);
    }

    pub fn meet_in(&mut self, kind: u32, call: &'static str, answer: &'static str) {
        *self.answers.entry((kind, call, answer)).or_default() += 1;
    }

    pub fn meet(&mut self, met: Vec<Subject>) {
        for subject in met {
            *self.subjects.entry(subject).or_default() += 1;
        }
    }

    fn answers_in(&self, kind: u32, call: &'static str, answer: &'static str) -> u64 {
        let count = self.answers.get(&(kind, call, answer));
        count.copied().unwrap_or(0)
    }

    fn met(&self, subject: Subject) -> u64 {
        self.subjects.get(subject).copied().unwrap_or(0)
    }

    /// Prints how often each thing that is required was met.
    pub fn print(&self, required: &Required) {
        for (call, answers) in required.answers {
            let counts: Vec<String> = answers
                .iter()
                .map(|answer| {
                    let all_kinds: u64 = (0..=2).map(|k| self.answers_in(k, call, answer)).sum();
                    format!("{answer}: {all_kinds}")
                })
                .collect();
            println!("    {call}, {}", counts.join(", "));
        }
        for subject in required.subjects.concat() {
            println!("    {subject}: {}", self.met(subject));
        }
    }

    /// What is required and was never met.
    pub fn missing(&self, required: &Required) -> Vec<String> {
        let mut missing = Vec::new();
        for (call, answers) in required.answers {
            for answer in *answers {
                for kind in 0..=2 {
                    if (required.occurs)(answer, kind) && self.answers_in(kind, call, answer) == 0 {
                        missing.push(format!("kind {kind}, {call}: {answer}"));
                    }
                }
            }
        }
        let subjects = required.subjects.concat().into_iter();
        missing.extend(
            subjects
                .filter(|subject| self.met(subject) == 0)
                .map(|subject| subject.to_string()),
        );
        missing
    }
}
