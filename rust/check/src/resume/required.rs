//! What the random trials with resumes must meet.

use crate::coverage::Required;
use crate::resume::{history_subjects, subjects};

pub const OF_SINGLE_CALLS: Required = Required {
    answers: &[(
        "resume",
        &["refusal 1", "refusal 2", "refusal 10", "accepted"],
    )],
    occurs: |_, _| true,
    subjects: subjects::OF_RESUMES,
};

pub const OF_HISTORIES: Required = Required {
    answers: &[
        ("resume", &["accepted"]),
        ("clear", &["cleared"]),
        ("write", &["empty", "pattern"]),
        ("erase", &["empty", "pattern"]),
        ("read", &["empty", "pattern"]),
        ("first-match", &["none", "at"]),
        ("next-match", &["no next", "next"]),
        ("all-match", &["no hits", "hits"]),
    ],
    occurs: |_, _| true,
    subjects: history_subjects::OF_HISTORIES,
};
