//! A resume made through both layers of the wrapper crate, and of the tables that a memory owns.

use crate::binary::library::{owned as owned_seven, wrapped};
use crate::binary::{Binary, Tables};
use crate::family::Family;
use crate::geometry::Geometry;
use crate::resume::{Answer, Call};
use cam::{raw, Memory, Refusal};

pub fn raw(g: &Geometry, tables: &mut Tables, call: &mut Call) -> u64 {
    match call {
        Call::Resume => raw::resume(wrapped(g), &tables.store, &tables.indicators),
        Call::Seven(call) => Binary::raw(g, tables, call),
    }
}

pub fn typed(g: &Geometry, tables: &mut Tables, call: &mut Call) -> Answer {
    match call {
        Call::Resume => answer(wrapped(g).resume(&tables.store, &tables.indicators)),
        Call::Seven(call) => Answer::Seven(Binary::typed(g, tables, call)),
    }
}

/// A resume makes another memory of the tables, in the place of the first.
pub fn owned(memory: &mut Memory, call: &Call) -> Answer {
    match call {
        Call::Resume => {
            let (store, indicators) = (memory.store().to_vec(), memory.indicators().to_vec());
            let resumed = Memory::resumed(memory.geometry(), store, indicators);
            answer(resumed.map(|resumed| *memory = resumed))
        }
        Call::Seven(call) => Answer::Seven(owned_seven(memory, call)),
    }
}

fn answer(result: Result<(), Refusal>) -> Answer {
    match result {
        Ok(()) => Answer::Resumed,
        Err(why) => Answer::Refused(why.number()),
    }
}
