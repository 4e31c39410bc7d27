//! Boards: the array that a job leaves in one, and the tables that it has to have then.

use crate::binary::{image, Tables};
use crate::fit::damage::Change;
use crate::fit::names::Names;
use crate::fit::runs::JOB;
use crate::geometry::Geometry;
use crate::pool::Pool;
use crate::random::Random;
use std::fmt::{self, Display};

pub struct Board {
    pub names: Names,
    pub entries: Vec<Option<u32>>,
    /// The tables of the array.
    pub right: Tables,
    /// The text of a job that leaves it.
    job: String,
}

impl Board {
    pub fn new(random: &mut Random, geometry: Geometry, entries: Vec<Option<u32>>) -> Board {
        Board {
            names: Names::of(geometry),
            right: image::tables(&geometry, &entries),
            job: job(random, &geometry, &entries),
            entries,
        }
    }

    pub fn random(random: &mut Random, geometry: Geometry) -> Board {
        let entries = any_entries(random, &geometry);
        Board::new(random, geometry, entries)
    }

    /// With any pattern at about every other address.
    pub fn half_full(random: &mut Random, geometry: Geometry) -> Board {
        let addresses = 0..geometry.depth;
        let entries = addresses.map(|_| half_an_entry(random, &geometry));
        let entries = entries.collect();
        Board::new(random, geometry, entries)
    }

    pub fn geometry(&self) -> &Geometry {
        &self.names.geometry
    }

    pub fn changed(&self, changes: &[Change]) -> Tables {
        let mut tables = self.right.clone();
        for change in changes {
            change.make(&mut tables);
        }
        tables
    }

    /// The file of its job.
    pub fn job(&self) -> (String, Vec<u8>) {
        (JOB.to_string(), self.job.clone().into_bytes())
    }
}

fn half_an_entry(random: &mut Random, g: &Geometry) -> Option<u32> {
    random.one_in(2).then(|| random.below(g.patterns()))
}

/// Nothing, one pattern everywhere, a few entries, or many, of few patterns or of any.
fn any_entries(random: &mut Random, g: &Geometry) -> Vec<Option<u32>> {
    let pool = Pool::random(random, g);
    let sort = random.below(8);
    let mut entry = || match sort {
        0 => None,
        1 => Some(pool.patterns[0]),
        2 | 3 => random.one_in(16).then(|| pool.pattern(random, g)),
        4 | 5 => random.one_in(2).then(|| pool.pattern(random, g)),
        _ => half_an_entry(random, g),
    };
    (0..g.depth).map(|_| entry()).collect()
}

/// A write for each entry. Before some another pattern is written, and some empty addresses had an
/// entry that was erased.
fn job(random: &mut Random, g: &Geometry, entries: &[Option<u32>]) -> String {
    let mut text = g.line() + "\n";
    for (address, entry) in entries.iter().enumerate() {
        if random.one_in(4) {
            let other = random.below(g.patterns());
            text += &format!("write {address} {other}\n");
            if entry.is_none() {
                text += &format!("erase {address}\n");
            }
        }
        if let Some(pattern) = entry {
            text += &format!("write {address} {pattern}\n");
        }
    }
    text
}

impl Display for Board {
    fn fmt(&self, f: &mut fmt::Formatter) -> fmt::Result {
        let entries = self.entries.iter().enumerate();
        let held = entries.filter_map(|(address, entry)| {
            let pattern = (*entry)?;
            Some(format!("{address}:={pattern}"))
        });
        let held = listed(&held.collect::<Vec<String>>(), "empty");
        write!(f, "{}: {held}", self.geometry())
    }
}

/// The first ones, and how many more there are.
pub fn listed<T: Display>(all: &[T], none: &str) -> String {
    const SHOWN: usize = 12;
    let shown: Vec<String> = all.iter().take(SHOWN).map(T::to_string).collect();
    match all.len() - shown.len() {
        0 if shown.is_empty() => none.to_string(),
        0 => shown.join(", "),
        more => format!("{} and {more} more", shown.join(", ")),
    }
}
