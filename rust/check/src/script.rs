//! Written-out examples: calls with the answers they must get, and looks at the tables between
//! them.

use crate::family::{AnyAnswer, Family, Histories};
use crate::geometry::Geometry;
use crate::memory::{Layer, Memory};
use crate::note::note;
use crate::trial::Trial;

pub struct Script<F: Family> {
    pub name: &'static str,
    pub geometry: Geometry,
    /// The tables that are lent, as they are before the first call.
    pub before: F::Tables,
    pub lines: Vec<Line<F>>,
}

pub enum Line<F: Family> {
    Call(F::Call, F::Answer),
    Look(Look<F>),
}

/// Looks at the tables, or changes them by hand.
type Look<F> = Box<dyn Fn(&mut Memory<F>) -> Result<(), String>>;

impl<F: Family> Line<F> {
    pub fn look(look: impl Fn(&mut Memory<F>) -> Result<(), String> + 'static) -> Line<F> {
        Line::Look(Box::new(look))
    }
}

impl<F: Family> Script<F> {
    /// Runs the script through both layers of the wrapper.
    pub fn run(&self) -> Result<(), String> {
        for layer in [Layer::Raw, Layer::Typed] {
            let mut memory = Memory {
                geometry: self.geometry,
                tables: self.before.clone(),
                layer,
            };
            note().begin_calls();
            for line in &self.lines {
                match line {
                    Line::Call(call, right) => {
                        memory.call(call, right)?;
                        memory.walk(call, right)?;
                    }
                    Line::Look(look) => look(&mut memory)?,
                }
            }
        }
        Ok(())
    }
}

impl<F: Histories> Script<F> {
    /// The calls alone, where their answers are those of a history.
    pub fn history(&self) -> Option<Trial<F>> {
        let trial = Trial::<F> {
            geometry: self.geometry,
            before: self.before.clone(),
            calls: self.calls().map(|(call, _)| call.clone()).collect(),
        };
        let mut array = trial.first_array()?;
        let right = |(call, answer): (&F::Call, &F::Answer)| {
            F::answer(&mut array, call).code() == answer.code()
        };
        self.calls().all(right).then_some(trial)
    }

    /// A call of the script, by its number from 1.
    pub fn call_text(&self, number: u64) -> Option<String> {
        let place = (number as usize).checked_sub(1)?;
        self.calls().nth(place).map(|(call, _)| call.to_string())
    }

    fn calls(&self) -> impl Iterator<Item = (&F::Call, &F::Answer)> {
        self.lines.iter().filter_map(|line| match line {
            Line::Call(call, answer) => Some((call, answer)),
            Line::Look(_) => None,
        })
    }
}
