//! A trial: a geometry, the tables as they are before, and the calls made on them. Histories and
//! single calls are both trials; they differ in what they are held to.

use crate::coverage::Tally;
use crate::family::{AnyAnswer, AnyCall, Family, Histories};
use crate::geometry::Geometry;
use crate::lent::{AnyTables, Lent};
use crate::memory::{Layer, Memory};
use crate::note::note;
use std::fmt;

#[derive(Clone)]
pub struct Trial<F: Family> {
    pub geometry: Geometry,
    pub before: F::Tables,
    pub calls: Vec<F::Call>,
}

impl<F: Histories> Trial<F> {
    /// What rules 10.2 and 10.6 of docs/MEMORY.md speak of: calls of which the first is accepted
    /// and begins a history.
    pub fn is_history(&self) -> bool {
        self.first_array().is_some()
    }

    pub fn first_array(&self) -> Option<F::Array> {
        F::begin(&self.geometry, &self.before, self.calls.first()?)
    }

    /// Every answer is the plain array's (rules 10.2 and 10.6), and at the end so are the tables
    /// (rule 10.3); a walk after an all-match finds the same (rule 10.8). The array runs first, so
    /// that it cannot know what the library does.
    pub fn judge_history(&self, tally: &mut Tally) -> Result<(), String> {
        let mut array = self.first_array().expect("it is a history");
        let mut answers = Vec::new();
        for call in &self.calls {
            let before = array.clone();
            let right = F::answer(&mut array, call);
            let met = F::met_in_history(&before, call, &right);
            tally.count(&self.geometry, call.name(), right.label(), met);
            answers.push(right);
        }
        let mut memory = self.lend();
        note().begin_calls();
        for (call, right) in self.calls.iter().zip(&answers) {
            memory.call(call, right)?;
            memory.walk(call, right)?;
        }
        note().begin_calls();
        memory
            .compare_tables(&F::tables_of(&array))
            .map_err(|what| format!("at the end {what}"))
    }
}

impl<F: Family> Trial<F> {
    pub fn is_single_call(&self) -> bool {
        self.calls.len() == 1
    }

    /// All that is lent: the tables, and then what is lent to single calls.
    pub fn lent(&self) -> Vec<&dyn Lent> {
        let mut lent = self.before.all();
        lent.extend(self.calls.iter().filter_map(AnyCall::lent));
        lent
    }

    pub fn lent_mut(&mut self) -> Vec<&mut dyn Lent> {
        let mut lent = self.before.all_mut();
        lent.extend(self.calls.iter_mut().filter_map(AnyCall::lent_mut));
        lent
    }

    fn lend(&self) -> Memory<F> {
        Memory {
            geometry: self.geometry,
            tables: self.before.clone(),
            layer: Layer::Raw,
        }
    }

    /// The answer and every word afterwards are those of sections 8 and 9 on these tables.
    pub fn judge_single_call(&self, tally: &mut Tally) -> Result<(), String> {
        let call = &self.calls[0];
        let mut tables = self.before.clone();
        let right = F::step(&self.geometry, &mut tables, call);
        let met = F::met_by_step(&self.geometry, &self.before, call, &right);
        tally.count(&self.geometry, call.name(), right.label(), met);
        let mut memory = self.lend();
        note().begin_calls();
        memory.call(call, &right)?;
        memory
            .compare_tables(&tables)
            .map_err(|what| format!("after {call} {what}"))
    }

    /// A call of the trial in its notation, by its number from 1.
    pub fn call_text(&self, number: u64) -> Option<String> {
        let call = self.calls.get((number as usize).checked_sub(1)?)?;
        Some(self.notation(call))
    }

    fn fits(&self, table: &dyn Lent) -> bool {
        self.geometry.is_valid() && table.fits(&self.geometry)
    }

    /// The call, with the length of a match word that does not fit.
    pub fn notation(&self, call: &F::Call) -> String {
        match call.lent() {
            Some(lent) if !self.fits(lent) => {
                format!("{call} ({} of length {})", lent.name(), lent.length())
            }
            _ => call.to_string(),
        }
    }

    /// What the tables hold before, where it is not a cleared memory's, and lengths that do not
    /// fit.
    pub fn tables_before(&self) -> Vec<String> {
        let tables = self.before.all();
        let wrong = tables.iter().filter(|table| !self.fits(**table));
        let lengths = wrong.map(|table| table.length_text());
        let words = tables.iter().flat_map(|table| table.words_text());
        lengths.chain(words).collect()
    }
}

/// As section 15 has its cases: a geometry, a colon, and calls such as `clear, 2:=1, match 1`.
impl<F: Family> fmt::Display for Trial<F> {
    fn fmt(&self, f: &mut fmt::Formatter) -> fmt::Result {
        const SHOWN: usize = 12;
        write!(f, "{}", self.geometry)?;
        let before = self.tables_before();
        if !before.is_empty() {
            let shown = before.len().min(SHOWN);
            write!(f, " (before: {}", before[..shown].join(", "))?;
            if shown < before.len() {
                write!(f, " and {} more", before.len() - shown)?;
            }
            write!(f, "; else empty and 0)")?;
        }
        let calls: Vec<String> = self.calls.iter().map(|call| self.notation(call)).collect();
        write!(f, ": {}", calls.join(", "))
    }
}
