//! What the random trials of the seven calls must meet.

use crate::binary::{next_subjects, short_subjects, subjects};
use crate::coverage::Required;
use crate::geometry::SEGMENTED;
use crate::subjects::BROKEN_RULES;

/// Kind 2 alone compares entries.
pub fn occurs(answer: &'static str, kind: u32) -> bool {
    answer != "refusal 6" || kind == SEGMENTED
}

pub const OF_HISTORIES: Required = Required {
    answers: &[
        ("clear", &["cleared"]),
        ("write", &["refusal 3", "refusal 4", "empty", "pattern"]),
        ("erase", &["refusal 3", "empty", "pattern"]),
        ("read", &["refusal 3", "empty", "pattern"]),
        ("first-match", &["refusal 4", "none", "at"]),
        ("next-match", &["refusal 3", "refusal 4", "no next", "next"]),
        ("all-match", &["refusal 2", "refusal 4", "no hits", "hits"]),
    ],
    occurs,
    subjects: &[
        subjects::OF_HISTORIES,
        next_subjects::OF_HISTORIES,
        short_subjects::OF_HISTORIES,
    ],
};

/// Of a single call that is given an address and no pattern.
const AT_AN_ADDRESS: &[&str] = &[
    "refusal 1",
    "refusal 2",
    "refusal 3",
    "refusal 5",
    "empty",
    "pattern",
];

pub const OF_SINGLE_CALLS: Required = Required {
    answers: &[
        ("clear", &["refusal 1", "refusal 2", "cleared"]),
        (
            "write",
            &[
                "refusal 1",
                "refusal 2",
                "refusal 3",
                "refusal 4",
                "refusal 5",
                "empty",
                "pattern",
            ],
        ),
        ("erase", AT_AN_ADDRESS),
        ("read", AT_AN_ADDRESS),
        (
            "first-match",
            &[
                "refusal 1",
                "refusal 2",
                "refusal 4",
                "refusal 6",
                "none",
                "at",
            ],
        ),
        (
            "next-match",
            &[
                "refusal 1",
                "refusal 2",
                "refusal 3",
                "refusal 4",
                "refusal 6",
                "no next",
                "next",
            ],
        ),
        (
            "all-match",
            &[
                "refusal 1",
                "refusal 2",
                "refusal 4",
                "refusal 6",
                "no hits",
                "hits",
            ],
        ),
    ],
    occurs,
    subjects: &[
        BROKEN_RULES,
        subjects::OF_SINGLE_CALLS,
        next_subjects::OF_SINGLE_CALLS,
        next_subjects::IN_EACH_KIND,
        short_subjects::OF_SINGLE_CALLS,
    ],
};
