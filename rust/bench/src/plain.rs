//! What a resume tests, written plainly in two ways to time it beside: in two looks, which need no
//! memory of their own, and with the image made anew.

use cam::{Geometry, Refusal, CASCADED, EMPTY, SEGMENTED, TRANSPOSED};

/// Each look asks what the other cannot see: the first misses a bit that is 1 and should be 0, the
/// second one that is 0 and should be 1.
#[inline(never)]
pub fn two_looks(g: Geometry, store: &[u32], indicators: &[u64]) -> Result<(), Refusal> {
    let sizes = Sizes::of_lent(g, store, indicators)?;
    let right = sizes.entries_are_indicated(store, indicators)
        && sizes.indicators_are_covered(store, indicators);
    accepted(right)
}

#[inline(never)]
pub fn image_anew(g: Geometry, store: &[u32], indicators: &[u64]) -> Result<(), Refusal> {
    let sizes = Sizes::of_lent(g, store, indicators)?;
    accepted(sizes.image(store).is_some_and(|image| image == indicators))
}

fn accepted(right: bool) -> Result<(), Refusal> {
    right.then_some(()).ok_or(Refusal::Tables)
}

fn is_valid(g: Geometry) -> bool {
    let widest = if g.kind == CASCADED { 27 } else { 12 };
    let sets_fit = match g.kind {
        TRANSPOSED | CASCADED => g.set_width == 1,
        SEGMENTED => (1..=64).contains(&g.set_width) && g.set_width <= g.depth,
        _ => false,
    };
    (1..=4096).contains(&g.depth) && (1..=widest).contains(&g.pattern_width) && sets_fit
}

/// What follows from a valid geometry.
struct Sizes {
    patterns: u32,
    set_width: usize,
    sets: usize,
    row_words: usize,
    indicator_words: usize,
    stages: u32,
    /// The bits of stage 0. In kinds 0 and 2 that is the whole pattern.
    stage_mask: u32,
}

impl Sizes {
    /// The sizes where the geometry is one and the tables have its lengths.
    fn of_lent(g: Geometry, store: &[u32], indicators: &[u64]) -> Result<Sizes, Refusal> {
        if !is_valid(g) {
            return Err(Refusal::Geometry);
        }
        let sets = g.depth.div_ceil(g.set_width) as usize;
        let row_words = sets.div_ceil(64);
        let stages = match g.kind {
            CASCADED => g.pattern_width.div_ceil(9),
            _ => 1,
        };
        let last = stages - 1;
        let rows = 512 * last as usize + (1 << (g.pattern_width - 9 * last));
        let sizes = Sizes {
            patterns: 1 << g.pattern_width,
            set_width: g.set_width as usize,
            sets,
            row_words,
            indicator_words: row_words * rows,
            stages,
            stage_mask: if g.kind == CASCADED { 511 } else { u32::MAX },
        };
        if store.len() != g.depth as usize || indicators.len() != sizes.indicator_words {
            return Err(Refusal::Lengths);
        }
        Ok(sizes)
    }

    /// The first look: every entry is empty or a pattern, and in each of its rows the bit of its set
    /// is 1.
    fn entries_are_indicated(&self, store: &[u32], indicators: &[u64]) -> bool {
        store.iter().enumerate().all(|(address, &entry)| {
            let set = address / self.set_width;
            let is_indicated = |row| self.bit(indicators, row, set);
            entry == EMPTY || self.is_pattern(entry) && self.rows(entry).all(is_indicated)
        })
    }

    /// The second look: every bit that is 1 is that of a set, and an entry of the set covers its row.
    fn indicators_are_covered(&self, store: &[u32], indicators: &[u64]) -> bool {
        indicators.iter().enumerate().all(|(i, &word)| {
            word == 0 || self.is_word_covered(store, i / self.row_words, i % self.row_words, word)
        })
    }

    /// Whether this holds of word j of a row. It stays out of the loop over the words, most of which
    /// are 0: inlined, it makes the time of that loop a matter of where the linker puts it.
    #[inline(never)]
    fn is_word_covered(&self, store: &[u32], row: usize, j: usize, word: u64) -> bool {
        let mut left = word;
        while left != 0 {
            let set = 64 * j + left.trailing_zeros() as usize;
            if set >= self.sets || !self.is_covered(store, row, set) {
                return false;
            }
            left &= left - 1;
        }
        true
    }

    /// A last set that is short ends with the store.
    fn is_covered(&self, store: &[u32], row: usize, set: usize) -> bool {
        let first = self.set_width * set;
        let line = &store[first..store.len().min(first + self.set_width)];
        line.iter().any(|&entry| self.covers(entry, row))
    }

    fn covers(&self, entry: u32, row: usize) -> bool {
        self.is_pattern(entry) && self.row(entry, self.stage_of(row)) == row
    }

    /// The indicators that belong to the store, if it has nothing but patterns and empty entries.
    fn image(&self, store: &[u32]) -> Option<Vec<u64>> {
        let mut image = vec![0; self.indicator_words];
        for (address, &entry) in store.iter().enumerate() {
            if entry == EMPTY {
                continue;
            }
            if !self.is_pattern(entry) {
                return None;
            }
            let set = address / self.set_width;
            for row in self.rows(entry) {
                image[self.word(row, set)] |= 1 << (set % 64);
            }
        }
        Some(image)
    }

    fn is_pattern(&self, entry: u32) -> bool {
        entry < self.patterns
    }

    fn bit(&self, indicators: &[u64], row: usize, set: usize) -> bool {
        indicators[self.word(row, set)] >> (set % 64) & 1 == 1
    }

    /// Which word of the indicators has the bit of a set in a row.
    fn word(&self, row: usize, set: usize) -> usize {
        self.row_words * row + set / 64
    }

    /// The rows of a pattern, one in each stage.
    fn rows(&self, pattern: u32) -> impl Iterator<Item = usize> + '_ {
        (0..self.stages).map(move |k| self.row(pattern, k))
    }

    fn row(&self, pattern: u32, k: u32) -> usize {
        (512 * k + (pattern >> (9 * k) & self.stage_mask)) as usize
    }

    /// The stage of a row. One that is the whole pattern may have more than 512.
    fn stage_of(&self, row: usize) -> u32 {
        match self.stages {
            1 => 0,
            _ => row as u32 / 512,
        }
    }
}
