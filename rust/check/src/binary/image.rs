//! The tables of an array (rule 6.4 of docs/MEMORY.md): its entries as words of the store, and its
//! image.

use crate::binary::Tables;
use crate::geometry::Geometry;
use crate::tables::{EMPTY, INDICATORS, STORE};

pub fn tables(geometry: &Geometry, entries: &[Option<u32>]) -> Tables {
    Tables {
        store: STORE.table(&store(entries)),
        indicators: INDICATORS.table(&indicators(geometry, entries)),
    }
}

/// The word of each entry (rule 3.2).
fn store(entries: &[Option<u32>]) -> Vec<u32> {
    entries.iter().map(|entry| entry.unwrap_or(EMPTY)).collect()
}

/// The image (rules 6.1 to 6.3). Rule 6.1 turned round: in each row that it covers an entry marks
/// the bit of its set (rule 3.5), and nothing else is marked, so that padding bits are 0.
fn indicators(geometry: &Geometry, entries: &[Option<u32>]) -> Vec<u64> {
    let mut words = vec![0; geometry.indicator_words()];
    for (address, entry) in entries.iter().enumerate() {
        let Some(pattern) = *entry else { continue };
        let set = geometry.set_of(address as u32);
        for stage in 0..geometry.stages() {
            words[geometry.row_start(pattern, stage) + set / 64] |= 1 << (set % 64);
        }
    }
    words
}
