//! A memory that owns its tables.

use crate::{FirstMatch, Geometry, Places, Refusal, EMPTY};

/// A geometry with tables of its own, cleared by `new` or accepted by `resumed`. Nothing but the
/// library's calls writes them after that. So of the refusals these methods give
/// [`Refusal::Address`] and [`Refusal::Pattern`] alone, and `new` [`Refusal::Geometry`] alone.
///
/// Two memories of one geometry are equal exactly when every address holds the same in both.
///
/// ```
/// use cam::{Geometry, Memory, Refusal, SEGMENTED};
///
/// let mut memory = Memory::new(Geometry {
///     kind: SEGMENTED,
///     depth: 8,
///     pattern_width: 2,
///     set_width: 2,
/// })?;
/// assert_eq!(memory.write(6, 3)?, None);
/// assert_eq!(memory.write(1, 3)?, None);
/// assert_eq!(memory.first_match(3)?.address, Some(1));
/// let found = memory.all_match(3)?;
/// assert_eq!(found.hits, 2);
/// assert!(found.addresses().eq([1, 6]));
/// assert_eq!(memory.write(8, 3), Err(Refusal::Address));
/// # Ok::<(), Refusal>(())
/// ```
#[derive(Clone, Debug, PartialEq, Eq)]
pub struct Memory {
    geometry: Geometry,
    store: Vec<u32>,
    indicators: Vec<u64>,
    match_words: usize,
}

/// What an all-match gives.
#[derive(Clone, Debug, PartialEq, Eq)]
pub struct AllMatch {
    /// How many addresses hold the key.
    pub hits: u32,
    /// The match word: bit a % 64 of word a / 64 is 1 where address a holds the key.
    pub words: Vec<u64>,
}

impl Memory {
    /// A memory whose every address is empty.
    pub fn new(geometry: Geometry) -> Result<Memory, Refusal> {
        // The lengths come first: four numbers that are no geometry may ask for any store.
        let indicator_words = geometry.indicator_words()?;
        let match_words = geometry.match_words()?;
        let mut memory = Memory {
            geometry,
            store: vec![EMPTY; geometry.depth as usize],
            indicators: vec![0; indicator_words],
            match_words,
        };
        memory.clear()?;
        Ok(memory)
    }

    /// A memory that goes on with tables that some history left. Refused are those that a resume
    /// refuses ([`Geometry::resume`]).
    pub fn resumed(
        geometry: Geometry,
        store: Vec<u32>,
        indicators: Vec<u64>,
    ) -> Result<Memory, Refusal> {
        geometry.resume(&store, &indicators)?;
        Ok(Memory {
            geometry,
            store,
            indicators,
            match_words: geometry.match_words()?,
        })
    }

    pub fn geometry(&self) -> Geometry {
        self.geometry
    }

    /// What each address holds, [`EMPTY`] for empty.
    pub fn store(&self) -> &[u32] {
        &self.store
    }

    /// The words of the indicators, one row after the other.
    pub fn indicators(&self) -> &[u64] {
        &self.indicators
    }

    /// Empties every address.
    pub fn clear(&mut self) -> Result<(), Refusal> {
        self.geometry.clear(&mut self.store, &mut self.indicators)
    }

    /// Puts the pattern at the address and gives the previous entry, `None` for empty.
    pub fn write(&mut self, address: u32, pattern: u32) -> Result<Option<u32>, Refusal> {
        let g = self.geometry;
        g.write(&mut self.store, &mut self.indicators, address, pattern)
    }

    /// Empties the address and gives the previous entry, `None` for empty.
    pub fn erase(&mut self, address: u32) -> Result<Option<u32>, Refusal> {
        let g = self.geometry;
        g.erase(&mut self.store, &mut self.indicators, address)
    }

    /// The entry at the address, `None` for empty.
    pub fn read(&self, address: u32) -> Result<Option<u32>, Refusal> {
        self.geometry.read(&self.store, &self.indicators, address)
    }

    /// The lowest address that holds the key.
    pub fn first_match(&self, key: u32) -> Result<FirstMatch, Refusal> {
        self.geometry
            .first_match(&self.store, &self.indicators, key)
    }

    /// The lowest address above the given one that holds the key. What the given one holds does not
    /// matter.
    pub fn next_match(&self, address: u32, key: u32) -> Result<Option<u32>, Refusal> {
        self.geometry
            .next_match(&self.store, &self.indicators, address, key)
    }

    /// The addresses that hold the key, ascending. Each is looked for when it is asked for, and no
    /// match word is made. The only refusal is [`Refusal::Pattern`], as the only item.
    ///
    /// ```
    /// use cam::{Geometry, Memory, Refusal, SEGMENTED};
    ///
    /// let mut memory = Memory::new(Geometry {
    ///     kind: SEGMENTED,
    ///     depth: 8,
    ///     pattern_width: 2,
    ///     set_width: 4,
    /// })?;
    /// for address in [6, 1, 3] {
    ///     memory.write(address, 2)?;
    /// }
    /// for address in memory.places(2) {
    ///     assert_eq!(memory.read(address?)?, Some(2));
    /// }
    /// let addresses: Vec<u32> = memory.places(2).collect::<Result<_, _>>()?;
    /// assert_eq!(addresses, [1, 3, 6]);
    /// assert_eq!(memory.places(0).next(), None);
    /// assert!(memory.places(4).eq([Err(Refusal::Pattern)]));
    /// # Ok::<(), Refusal>(())
    /// ```
    pub fn places(&self, key: u32) -> Places<'_> {
        self.geometry.places(&self.store, &self.indicators, key)
    }

    /// Every address that holds the key. The match word is made anew each time; to use one again
    /// and again, lend it with the tables to [`Geometry::all_match`].
    pub fn all_match(&self, key: u32) -> Result<AllMatch, Refusal> {
        let mut words = vec![0; self.match_words];
        let g = self.geometry;
        let hits = g.all_match(&self.store, &self.indicators, &mut words, key)?;
        Ok(AllMatch { hits, words })
    }
}

impl AllMatch {
    /// The addresses that hold the key, ascending.
    pub fn addresses(&self) -> impl Iterator<Item = u32> + '_ {
        (0u32..).zip(&self.words).flat_map(|(i, &word)| {
            let ones = (0..64).filter(move |bit| word >> bit & 1 == 1);
            ones.map(move |bit| 64 * i + bit)
        })
    }
}
