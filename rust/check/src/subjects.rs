//! What the troubles that the random trials are made to meet have in common, and those that lie in
//! the geometry alone.

use crate::geometry::{Geometry, CASCADED, SEGMENTED};

/// The name of a trouble.
pub type Subject = &'static str;

/// The names of a trouble that is to be met in each kind, by the kind.
pub type InEachKind = [Subject; 3];

/// Makes them of the one name of the trouble.
macro_rules! in_each_kind {
    ($trouble:literal) => {
        [
            concat!("kind 0, ", $trouble),
            concat!("kind 1, ", $trouble),
            concat!("kind 2, ", $trouble),
        ]
    };
}
pub(crate) use in_each_kind;

/// The subjects that are marked as met.
pub fn those(subjects: &[(bool, Subject)]) -> Vec<Subject> {
    let met = subjects.iter().filter(|(is_met, _)| *is_met);
    met.map(|&(_, subject)| subject).collect()
}

/// One fault is a subject; of several at once, a test of one alone could hide behind another.
pub fn alone(faults: Vec<Subject>) -> Vec<Subject> {
    if faults.len() == 1 {
        faults
    } else {
        Vec::new()
    }
}

/// What a reader of one, two or three bytes sees.
pub fn low_bytes(field: u32) -> [u32; 3] {
    [field & 0xff, field & 0xffff, field & 0xff_ffff]
}

const NO_SUCH_KIND: Subject = "a kind over 2";
const DEPTH_0: Subject = "depth 0";
const DEPTH_OVER: Subject = "a depth over 4,096";
const PATTERN_WIDTH_0: Subject = "pattern width 0";
const PATTERN_WIDTH_OVER: Subject = "a pattern width over 12, in kind 1 over 27";
const SET_WIDTH_0: Subject = "set width 0";
const SET_WIDTH_OVER: Subject = "a set width over 64, in kinds 0 and 1 over 1";
const SET_WIDTH_ABOVE: Subject = "a set width above the depth";

pub const BROKEN_RULES: &[Subject] = &[
    NO_SUCH_KIND,
    DEPTH_0,
    DEPTH_OVER,
    PATTERN_WIDTH_0,
    PATTERN_WIDTH_OVER,
    SET_WIDTH_0,
    SET_WIDTH_OVER,
    SET_WIDTH_ABOVE,
];

/// The widest pattern and the widest set of a kind.
pub fn limits(g: &Geometry) -> (u32, u32) {
    match g.kind {
        CASCADED => (27, 1),
        SEGMENTED => (12, 64),
        _ => (12, 1),
    }
}

pub fn broken_rules(g: &Geometry) -> Vec<Subject> {
    let (widest_pattern, widest_set) = limits(g);
    those(&[
        (g.kind > 2, NO_SUCH_KIND),
        (g.depth == 0, DEPTH_0),
        (g.depth > 4096, DEPTH_OVER),
        (g.pattern_width == 0, PATTERN_WIDTH_0),
        (g.pattern_width > widest_pattern, PATTERN_WIDTH_OVER),
        (g.set_width == 0, SET_WIDTH_0),
        (g.set_width > widest_set, SET_WIDTH_OVER),
        (above_depth(g), SET_WIDTH_ABOVE),
    ])
}

/// In kinds 0 and 1 a set width other than 1 breaks their own rule, and depth 0 is one whatever the
/// set width.
fn above_depth(g: &Geometry) -> bool {
    g.kind == SEGMENTED && g.depth != 0 && g.set_width > g.depth
}
