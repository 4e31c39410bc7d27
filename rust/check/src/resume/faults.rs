//! What is wrong with tables that a resume refuses with 10, fault by fault.

use crate::binary::Tables;
use crate::geometry::{Geometry, CASCADED};
use crate::resume::step::made_anew;

/// So many are listed: more at once are no subject.
const MOST: usize = 8;

/// Of tables whose lengths are right.
pub struct Faults {
    /// The addresses whose words are neither empty nor patterns.
    pub entries: Vec<usize>,
    /// The bits that are not those of the image.
    pub bits: Vec<Bit>,
}

/// A wrong bit of the indicators.
pub struct Bit {
    pub word: usize,
    pub stage: usize,
    /// Its place in the row: the number of its set, if there is such a set.
    pub place: usize,
    pub is_one: bool,
}

impl Faults {
    pub fn of(g: &Geometry, tables: &Tables) -> Faults {
        let right = made_anew(g, tables);
        let entries = 0..tables.store.len();
        let words = 0..tables.indicators.len();
        let wrong_bits = words.flat_map(|word| {
            let (given, right) = (tables.indicators[word], right.indicators[word]);
            differing_bits(given, right).map(move |bit| Bit {
                word,
                stage: stage_of(g, word / g.row_words()),
                place: 64 * (word % g.row_words()) + bit,
                is_one: given >> bit & 1 == 1,
            })
        });
        Faults {
            entries: entries
                .filter(|&a| tables.store[a] != right.store[a])
                .take(MOST)
                .collect(),
            bits: wrong_bits.take(MOST).collect(),
        }
    }

    /// The set of all that is wrong, if it is in one and not in padding.
    pub fn only_set(&self, g: &Geometry) -> Option<usize> {
        let of_entries = self.entries.iter().map(|&a| g.set_of(a as u32));
        let mut sets = of_entries.chain(self.bits.iter().map(|bit| bit.place));
        let set = sets.next()?;
        (set < g.sets() && sets.all(|other| other == set)).then_some(set)
    }

    /// The stages of the wrong bits that are 1, or of those that are 0, in ascending order.
    pub fn stages(&self, is_one: bool) -> Vec<usize> {
        let bits = self.bits.iter().filter(|bit| bit.is_one == is_one);
        bits.map(|bit| bit.stage).collect()
    }
}

/// Rows are numbered through all stages (rule 4.3 of docs/MEMORY.md).
fn stage_of(g: &Geometry, row: usize) -> usize {
    match g.kind {
        CASCADED => row / 512,
        _ => 0,
    }
}

fn differing_bits(given: u64, right: u64) -> impl Iterator<Item = usize> {
    let differ = given ^ right;
    let bits = if differ == 0 { 0..0 } else { 0..64 };
    bits.filter(move |bit| differ >> bit & 1 == 1)
}
