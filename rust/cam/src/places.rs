//! The addresses that hold a key, one after the other.

use crate::{Geometry, Refusal};
use std::iter::FusedIterator;

/// The addresses that hold a key, ascending. A refusal is an item too, and then the last one: on
/// tables that something other than the library's calls has written, one may follow addresses.
///
/// [`Memory::places`](crate::Memory::places) and [`Geometry::places`] make it.
#[derive(Clone, Debug)]
pub struct Places<'a> {
    geometry: Geometry,
    store: &'a [u32],
    indicators: &'a [u64],
    key: u32,
    next: Next,
}

/// The call that gives the next item.
#[derive(Clone, Copy, Debug)]
enum Next {
    First,
    Above(u32),
    Nothing,
}

impl<'a> Places<'a> {
    pub(crate) fn new(
        geometry: Geometry,
        store: &'a [u32],
        indicators: &'a [u64],
        key: u32,
    ) -> Places<'a> {
        Places {
            geometry,
            store,
            indicators,
            key,
            next: Next::First,
        }
    }

    /// Makes the call that gives the next item.
    fn call(&self) -> Result<Option<u32>, Refusal> {
        let (g, store, indicators) = (self.geometry, self.store, self.indicators);
        match self.next {
            Next::First => Ok(g.first_match(store, indicators, self.key)?.address),
            Next::Above(address) => g.next_match(store, indicators, address, self.key),
            Next::Nothing => Ok(None),
        }
    }
}

impl Iterator for Places<'_> {
    type Item = Result<u32, Refusal>;

    fn next(&mut self) -> Option<Result<u32, Refusal>> {
        let found = self.call();
        self.next = match found {
            Ok(Some(address)) => Next::Above(address),
            Ok(None) | Err(_) => Next::Nothing,
        };
        found.transpose()
    }
}

impl FusedIterator for Places<'_> {}
