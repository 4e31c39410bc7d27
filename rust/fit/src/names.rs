//! What a word of the indicators and its bits stand for: sections 2 to 4 of docs/MEMORY.md.

use cam::{Geometry, CASCADED};

pub struct Names {
    kind: u32,
    row_words: usize,
    /// What is said of the bit of each set.
    sets: Vec<String>,
}

impl Names {
    /// Of four numbers that are a geometry.
    pub fn new(geometry: Geometry) -> Names {
        let [width, depth] = [geometry.set_width, geometry.depth].map(|n| n as usize);
        // Rule 2.6.
        let sets = depth.div_ceil(width);
        Names {
            kind: geometry.kind,
            // Rule 3.4.
            row_words: sets.div_ceil(64),
            sets: (0..sets).map(|set| of_set(set, width, depth)).collect(),
        }
    }

    /// How many words a row has.
    pub fn row_words(&self) -> usize {
        self.row_words
    }

    /// What a row belongs to (rule 4.3).
    pub fn row(&self, row: usize) -> String {
        match self.kind {
            CASCADED => format!("stage {} value {}", row / 512, row % 512),
            _ => format!("pattern {row}"),
        }
    }

    /// The wrong bits of a word: what is wrong with each, and whose it is.
    pub fn wrong_bits(&self, word: usize, model: u64, board: u64) -> String {
        let first = word % self.row_words * 64;
        let wrong = model ^ board;
        let mut text = String::new();
        for bit in (0..64).filter(|bit| wrong >> bit & 1 == 1) {
            // Rule 3.5. A bit that no set has is padding (rule 3.6).
            match (self.sets.get(first + bit), model >> bit & 1) {
                (None, _) => text += &format!(", padding bit {bit}"),
                (Some(set), 0) => text.extend([", stale ", set]),
                (Some(set), _) => text.extend([", missing ", set]),
            }
        }
        text
    }
}

/// The bit of a set, and the set's addresses (rules 2.5 and 2.7).
fn of_set(set: usize, width: usize, depth: usize) -> String {
    let (bit, first) = (set % 64, set * width);
    match (first + width).min(depth) - 1 {
        last if last == first => format!("bit {bit} set {set} address {first}"),
        last => format!("bit {bit} set {set} addresses {first} to {last}"),
    }
}
