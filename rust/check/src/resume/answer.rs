//! What comes back from a resume, and from the seven calls beside it.

use crate::binary::answer::Answer as OfTheSeven;
use crate::family::AnyAnswer;
use crate::lent::Lent;

pub enum Answer {
    /// With value 0 (rule 12.5 of docs/MEMORY.md).
    Resumed,
    /// Of a resume (rule 9.3).
    Refused(u32),
    Seven(OfTheSeven),
}

impl AnyAnswer for Answer {
    fn code(&self) -> u64 {
        match self {
            Answer::Resumed => 256,
            Answer::Refused(number) => u64::from(*number),
            Answer::Seven(answer) => answer.code(),
        }
    }

    fn label(&self) -> &'static str {
        match self {
            Answer::Resumed => "accepted",
            Answer::Refused(1) => "refusal 1",
            Answer::Refused(2) => "refusal 2",
            Answer::Refused(10) => "refusal 10",
            Answer::Refused(_) => unreachable!("no other number is ever right"),
            Answer::Seven(answer) => answer.label(),
        }
    }

    fn left(&self) -> Option<&dyn Lent> {
        match self {
            Answer::Seven(answer) => answer.left(),
            _ => None,
        }
    }
}
