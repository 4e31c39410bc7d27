//! The library under test: tables that are lent to it call by call, and what came back held to what
//! is right.

use crate::family::{AnyAnswer, AnyCall, Family};
use crate::geometry::Geometry;
use crate::lent::{AnyTables, Lent};
use crate::note::note;

/// Which layer of the wrapper crate makes the calls.
#[derive(Clone, Copy)]
pub enum Layer {
    Raw,
    Typed,
}

pub struct Memory<F: Family> {
    pub geometry: Geometry,
    pub tables: F::Tables,
    pub layer: Layer,
}

/// What came back from a call: the code, and the call with that which was lent to it alone as it is
/// afterwards.
struct Made<C> {
    code: u64,
    call: C,
}

impl<F: Family> Memory<F> {
    /// Makes the call and holds it to the right answer.
    pub fn call(&mut self, call: &F::Call, right: &F::Answer) -> Result<(), String> {
        let made = self.make(call)?;
        if made.code != right.code() {
            let given = call.describe(made.code);
            let right = call.describe(right.code());
            return Err(format!("{call} gave: {given}; right is: {right}"));
        }
        match (made.call.lent(), right.left().or(call.lent())) {
            (Some(given), Some(right)) => given
                .compare(&self.geometry, right)
                .map_err(|what| format!("{call}: {what}")),
            _ => Ok(()),
        }
    }

    /// Holds a walk to what the call found, if that was every address of a key.
    pub fn walk(&self, call: &F::Call, right: &F::Answer) -> Result<(), String> {
        F::walk(&self.geometry, &self.tables, call, right).map_err(|what| format!("{call}: {what}"))
    }

    /// Makes the call and holds it to what is asked of any call: no guard word is written and,
    /// where the tables are only read, no word of theirs.
    fn make(&mut self, call: &F::Call) -> Result<Made<F::Call>, String> {
        let before = (!call.writes_tables()).then(|| self.tables.clone());
        let (g, mut call) = (&self.geometry, call.clone());
        note().enter_call();
        let code = match self.layer {
            Layer::Raw => F::raw(g, &mut self.tables, &mut call),
            Layer::Typed => F::typed(g, &mut self.tables, &mut call).code(),
        };
        note().leave_call();
        let of_tables = self.tables.guards_hold();
        let guards = of_tables.and(call.lent().map_or(Ok(()), Lent::guards_hold));
        guards.map_err(|what| format!("{call}: {what}"))?;
        if let Some(before) = before {
            self.compare_tables(&before)
                .map_err(|what| format!("{call} may write no table: {what}"))?;
        }
        Ok(Made { code, call })
    }

    /// The first word in which the tables differ from the right ones.
    pub fn compare_tables(&self, right: &F::Tables) -> Result<(), String> {
        self.tables.compare(&self.geometry, right)
    }
}
