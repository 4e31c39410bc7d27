//! A resume on tables of any length and content: rules 6.5, 8.12 and 9.3 of docs/MEMORY.md.

use crate::binary::array::Array;
use crate::binary::{image, Tables};
use crate::geometry::Geometry;
use crate::lent::AnyTables;
use crate::resume::Answer;

/// It changes no word.
pub fn resume(g: &Geometry, tables: &Tables) -> Answer {
    match refusal(g, tables) {
        Some(number) => Answer::Refused(number),
        None => Answer::Resumed,
    }
}

/// The array that a history begins with if a resume begins it on these tables (rule 10.6).
pub fn shown(g: &Geometry, tables: &Tables) -> Option<Array> {
    let accepted = refusal(g, tables).is_none();
    accepted.then(|| Array::holding(*g, entries(g, tables)))
}

/// Its refusals, in their order (rule 9.3).
fn refusal(g: &Geometry, tables: &Tables) -> Option<u32> {
    if !g.is_valid() {
        return Some(1);
    }
    if !tables.fit(g) {
        return Some(2);
    }
    if tables.compare(g, &made_anew(g, tables)).is_err() {
        return Some(10);
    }
    None
}

/// The tables of the array that the store shows (rule 8.12). A word that is neither empty nor a
/// pattern comes out as an empty one, and so as another than it was.
pub fn made_anew(g: &Geometry, tables: &Tables) -> Tables {
    image::tables(g, &entries(g, tables))
}

/// The array that the store shows (rule 6.5).
fn entries(g: &Geometry, tables: &Tables) -> Vec<Option<u32>> {
    let entry = |&word: &u32| (word < g.patterns()).then_some(word);
    tables.store.iter().map(entry).collect()
}
