//! The plain array of a history that resumes may begin and cut, and what tells how it came about.

use crate::binary::answer::Answer as OfTheSeven;
use crate::binary::array::Array;
use crate::binary::call::Call as SevenCalls;
use crate::resume::{Answer, Call};

#[derive(Clone)]
pub struct Course {
    array: Array,
    /// Whether a resume began it, and not a clear.
    by_resume: bool,
    calls: usize,
    /// Of each address, whether no call has changed it since the last resume.
    taken_over: Vec<bool>,
}

impl Course {
    pub fn begun(array: Array, by_resume: bool) -> Course {
        let taken_over = vec![false; array.entries().len()];
        Course {
            array,
            by_resume,
            calls: 0,
            taken_over,
        }
    }

    pub fn array(&self) -> &Array {
        &self.array
    }

    pub fn by_resume(&self) -> bool {
        self.by_resume
    }

    /// Whether the first call is still to come.
    pub fn is_fresh(&self) -> bool {
        self.calls == 0
    }

    pub fn is_taken_over(&self, address: u32) -> bool {
        self.taken_over[address as usize]
    }

    /// After any history a resume is accepted, and the array goes on as it is (rule 10.7 of
    /// docs/MEMORY.md).
    pub fn call(&mut self, call: &Call) -> Answer {
        self.calls += 1;
        match call {
            Call::Resume => {
                self.taken_over.fill(true);
                Answer::Resumed
            }
            Call::Seven(call) => {
                let answer = self.array.call(call);
                self.changed_by(call, &answer);
                Answer::Seven(answer)
            }
        }
    }

    fn changed_by(&mut self, call: &SevenCalls, answer: &OfTheSeven) {
        match (call, answer) {
            (SevenCalls::Clear, _) => self.taken_over.fill(false),
            (
                SevenCalls::Write { address, .. } | SevenCalls::Erase { address },
                OfTheSeven::Entry(_),
            ) => self.taken_over[*address as usize] = false,
            _ => {}
        }
    }
}
