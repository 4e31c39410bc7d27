//! The plain array, section 5 of docs/MEMORY.md. It knows the geometry, and nothing of tables.

use crate::binary::answer::Answer;
use crate::binary::call::Call;
use crate::geometry::{Geometry, SEGMENTED};
use crate::tables::MATCH_WORD;

/// All that an array is (rule 5.1); `None` is an empty entry.
#[derive(Clone)]
pub struct Array {
    geometry: Geometry,
    entries: Vec<Option<u32>>,
}

impl Array {
    /// The array that a history begins with, if a clear begins it (rule 10.2).
    pub fn empty(geometry: Geometry) -> Array {
        Array {
            geometry,
            entries: vec![None; geometry.depth as usize],
        }
    }

    /// The array of a history that begins with these entries (rule 10.6).
    pub fn holding(geometry: Geometry, entries: Vec<Option<u32>>) -> Array {
        assert_eq!(entries.len(), geometry.depth as usize);
        Array { geometry, entries }
    }

    pub fn geometry(&self) -> Geometry {
        self.geometry
    }

    pub fn entries(&self) -> &[Option<u32>] {
        &self.entries
    }

    /// The answer to a call. Nothing is looked at of the match word lent to an all-match but its
    /// length (rule 5.8).
    pub fn call(&mut self, call: &Call) -> Answer {
        if let Some(number) = self.refusal(call) {
            return Answer::Refused(number);
        }
        match *call {
            Call::Clear => self.clear(),
            Call::Write { address, pattern } => self.replace(address, Some(pattern)),
            Call::Erase { address } => self.replace(address, None),
            Call::Read { address } => Answer::Entry(self.entries[address as usize]),
            Call::FirstMatch { key } => self.first_match(key),
            Call::NextMatch { address, key } => self.next_match(address, key),
            Call::AllMatch { key, .. } => self.all_match(key),
        }
    }

    /// Its refusals, in their order (rule 5.8).
    fn refusal(&self, call: &Call) -> Option<u32> {
        if let Call::AllMatch { lent, .. } = call {
            if lent.len() != self.geometry.match_words() {
                return Some(2);
            }
        }
        if call.address().is_some_and(|a| a >= self.geometry.depth) {
            return Some(3);
        }
        if call
            .pattern()
            .is_some_and(|p| p >= self.geometry.patterns())
        {
            return Some(4);
        }
        None
    }

    /// Every entry becomes empty (rule 5.2).
    fn clear(&mut self) -> Answer {
        for entry in &mut self.entries {
            *entry = None;
        }
        Answer::Cleared
    }

    /// A write or, with `None`, an erase, whatever the address has (rule 5.3).
    fn replace(&mut self, address: u32, entry: Option<u32>) -> Answer {
        let previous = self.entries[address as usize];
        self.entries[address as usize] = entry;
        Answer::Entry(previous)
    }

    /// The smallest address that has the key (rule 5.5), with w and c by formula (rule 5.7).
    fn first_match(&self, key: u32) -> Answer {
        for address in 0..self.geometry.depth {
            if self.entries[address as usize] == Some(key) {
                return Answer::At {
                    address,
                    words_read: address / (64 * self.geometry.set_width) + 1,
                    entries_compared: match self.geometry.kind {
                        SEGMENTED => self.beside(address),
                        _ => 0,
                    },
                };
            }
        }
        Answer::NoMatch {
            words_read: self.geometry.row_words() as u32,
            entries_compared: 0,
        }
    }

    /// How many addresses the set of this one has, itself among them.
    fn beside(&self, address: u32) -> u32 {
        let set = self.geometry.set_of(address);
        let all = 0..self.geometry.depth;
        all.filter(|&a| self.geometry.set_of(a) == set).count() as u32
    }

    /// The smallest address above this one that has the key, whatever this one has (rule 5.9).
    fn next_match(&self, address: u32, key: u32) -> Answer {
        let mut above = address + 1..self.geometry.depth;
        Answer::Next(above.find(|&a| self.entries[a as usize] == Some(key)))
    }

    /// The bit of each address that has the key, placed as rule 3.7 says, and how many there are
    /// (rule 5.6).
    fn all_match(&self, key: u32) -> Answer {
        let mut matches = vec![0; self.geometry.match_words()];
        let mut hits = 0;
        for a in 0..self.entries.len() {
            if self.entries[a] == Some(key) {
                matches[a / 64] += 1 << (a % 64);
                hits += 1;
            }
        }
        Answer::Matches {
            matches: MATCH_WORD.table(&matches),
            hits,
        }
    }
}
