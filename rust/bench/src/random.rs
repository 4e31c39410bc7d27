//! Numbers with no order that could be foreseen, and the same in every run.

pub struct Random {
    state: u64,
}

impl Random {
    pub fn new() -> Random {
        Random { state: 1 }
    }

    /// A number below 2^bits, of at most 31 bits.
    pub fn bits(&mut self, bits: u32) -> u32 {
        self.state = self
            .state
            .wrapping_mul(6_364_136_223_846_793_005)
            .wrapping_add(1);
        // The upper bits of such a state are the better ones.
        (self.state >> (64 - bits)) as u32
    }

    pub fn shuffle(&mut self, items: &mut [u32]) {
        for last in (1..items.len()).rev() {
            items.swap(last, self.bits(31) as usize % (last + 1));
        }
    }
}
