//! Geometries, and the sizes that follow from one: sections 2 to 4 of docs/MEMORY.md.

use std::fmt;
use std::ops::Range;

pub const TRANSPOSED: u32 = 0;
pub const CASCADED: u32 = 1;
pub const SEGMENTED: u32 = 2;

#[derive(Clone, Copy, Debug, PartialEq)]
pub struct Geometry {
    pub kind: u32,
    pub depth: u32,
    pub pattern_width: u32,
    pub set_width: u32,
}

pub const fn geometry(kind: u32, depth: u32, pattern_width: u32, set_width: u32) -> Geometry {
    Geometry {
        kind,
        depth,
        pattern_width,
        set_width,
    }
}

impl Geometry {
    /// Whether the four numbers break none of rules 2.2 to 2.4.
    pub fn is_valid(&self) -> bool {
        let (widest_pattern, widest_set) = match self.kind {
            TRANSPOSED => (12, 1),
            CASCADED => (27, 1),
            SEGMENTED => (12, 64),
            _ => return false,
        };
        (1..=4096).contains(&self.depth)
            && (1..=widest_pattern).contains(&self.pattern_width)
            && (1..=widest_set).contains(&self.set_width)
            && self.set_width <= self.depth
    }

    /// 2^P, which is above every pattern (rule 2.3).
    pub fn patterns(&self) -> u32 {
        1 << self.pattern_width
    }

    /// C (rule 2.6). A last set that is short is one too.
    pub fn sets(&self) -> usize {
        self.depth.div_ceil(self.set_width) as usize
    }

    /// The set that an address belongs to (rule 2.5).
    pub fn set_of(&self, address: u32) -> usize {
        (address / self.set_width) as usize
    }

    /// The addresses of a set, the one at offset 0 first (rule 2.5). The last set ends with the
    /// depth (rule 2.7).
    pub fn addresses_of(&self, set: usize) -> Range<u32> {
        let first = set as u32 * self.set_width;
        first..self.depth.min(first + self.set_width)
    }

    /// The last set, if it has fewer addresses than the others.
    pub fn short_set(&self) -> Option<usize> {
        let last = self.sets() - 1;
        let is_short = self.addresses_of(last).len() < self.set_width as usize;
        is_short.then_some(last)
    }

    /// R (rule 3.4).
    pub fn row_words(&self) -> usize {
        self.sets().div_ceil(64)
    }

    /// The length of a match word (rule 3.7).
    pub fn match_words(&self) -> usize {
        (self.depth as usize).div_ceil(64)
    }

    /// The number of stages, n in kind 1 (rule 4.1).
    pub fn stages(&self) -> u32 {
        match self.kind {
            CASCADED => self.pattern_width.div_ceil(9),
            _ => 1,
        }
    }

    /// A row for each value of the stage (rules 4.1 and 4.4).
    pub fn stage_rows(&self, stage: u32) -> usize {
        let last = stage + 1 == self.stages();
        let width = match (self.kind, last) {
            (CASCADED, false) => 9,
            (CASCADED, true) => self.pattern_width - 9 * (self.stages() - 1),
            _ => self.pattern_width,
        };
        1 << width
    }

    /// The length of the indicators (rule 3.3).
    pub fn indicator_words(&self) -> usize {
        let rows: usize = (0..self.stages()).map(|k| self.stage_rows(k)).sum();
        self.row_words() * rows
    }

    /// The value of a stage of the pattern (rule 4.2). In a last stage of fewer than nine bits the
    /// remainder by 512 is the same, as no pattern has bits above them.
    pub fn stage_value(&self, pattern: u32, stage: u32) -> usize {
        match self.kind {
            CASCADED => (pattern >> (9 * stage)) as usize % 512,
            _ => pattern as usize,
        }
    }

    /// Where in the indicators the row begins that a pattern has in a stage (rule 4.3).
    pub fn row_start(&self, pattern: u32, stage: u32) -> usize {
        let r = self.row_words();
        r * 512 * stage as usize + r * self.stage_value(pattern, stage)
    }

    /// The first line of a report (rule 14.1), with which a text for `tools/camjob` begins too.
    pub fn line(&self) -> String {
        format!(
            "kind {} depth {} width {} set {}",
            self.kind, self.depth, self.pattern_width, self.set_width
        )
    }
}

impl fmt::Display for Geometry {
    fn fmt(&self, f: &mut fmt::Formatter) -> fmt::Result {
        write!(
            f,
            "kind {}, D {}, P {}, W {}",
            self.kind, self.depth, self.pattern_width, self.set_width
        )
    }
}
