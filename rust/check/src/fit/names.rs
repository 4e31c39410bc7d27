//! The names of the words and bits of the indicators: sections 3 and 4 of docs/MEMORY.md. They are
//! found by going through all stages, values and sets and putting each in its place, so that no
//! name is worked out from the number of a word or a bit.

use crate::geometry::{Geometry, CASCADED};

pub struct Names {
    pub geometry: Geometry,
    words: Vec<Place>,
    /// The sets that have the bits of each word of a row.
    sets: Vec<[Option<usize>; 64]>,
}

/// Where a word of the indicators lies.
#[derive(Clone, Copy)]
struct Place {
    stage: u32,
    value: usize,
    /// Which word of the row it is.
    word: usize,
}

impl Names {
    pub fn of(geometry: Geometry) -> Names {
        Names {
            geometry,
            words: words(&geometry),
            sets: sets(&geometry),
        }
    }

    /// The name of the row that begins with this word, if one does.
    pub fn row_from(&self, word: usize) -> Option<String> {
        let place = &self.words[word];
        (place.word == 0).then(|| self.row(place))
    }

    fn row(&self, place: &Place) -> String {
        let Place { stage, value, .. } = place;
        match self.geometry.kind {
            CASCADED => format!("stage {stage} value {value}"),
            _ => format!("pattern {value}"),
        }
    }

    /// The row of a word of the indicators, and each bit in which the board's is wrong.
    pub fn differences(&self, word: usize, model: u64, board: u64) -> String {
        let place = &self.words[word];
        let mut text = self.row(place);
        for bit in 0..64 {
            let (right, given) = (model >> bit & 1, board >> bit & 1);
            if right != given {
                text += ", ";
                text += &self.wrong_bit(self.sets[place.word][bit], bit, given == 1);
            }
        }
        text
    }

    fn wrong_bit(&self, set: Option<usize>, bit: usize, is_one: bool) -> String {
        let Some(set) = set else {
            return format!("padding bit {bit}");
        };
        let how = if is_one { "stale" } else { "missing" };
        let addresses = self.geometry.addresses_of(set);
        let (first, last) = (addresses.start, addresses.end - 1);
        match addresses.len() {
            1 => format!("{how} bit {bit} set {set} address {first}"),
            _ => format!("{how} bit {bit} set {set} addresses {first} to {last}"),
        }
    }
}

/// Every row at the word where it begins (rule 4.3), its words side by side (rule 3.4).
fn words(g: &Geometry) -> Vec<Place> {
    let r = g.row_words();
    let mut words = vec![None; g.indicator_words()];
    for stage in 0..g.stages() {
        for value in 0..g.stage_rows(stage) {
            for word in 0..r {
                let place = Place { stage, value, word };
                let before = words[r * 512 * stage as usize + r * value + word].replace(place);
                assert!(before.is_none(), "no word is in two rows");
            }
        }
    }
    let of_a_row = |place: Option<Place>| place.expect("every word is in a row");
    words.into_iter().map(of_a_row).collect()
}

/// Every set at its bit (rule 3.5). What no set has is padding (rule 3.6).
fn sets(g: &Geometry) -> Vec<[Option<usize>; 64]> {
    let mut sets = vec![[None; 64]; g.row_words()];
    for set in 0..g.sets() {
        sets[set / 64][set % 64] = Some(set);
    }
    sets
}
