//! A seeded generator (splitmix64), so that every run can be repeated.

pub struct Random {
    state: u64,
}

impl Random {
    pub fn new(seed: u64) -> Random {
        Random { state: seed }
    }

    /// The generator of one trial, from the run's seed, the part it belongs to and its number
    /// there.
    pub fn of_trial(seed: u64, part: u64, index: u64) -> Random {
        let mut mixed = Random::new(seed);
        mixed.state = mixed.word() ^ part;
        mixed.state = mixed.word() ^ index;
        Random::new(mixed.word())
    }

    pub fn word(&mut self) -> u64 {
        self.state = self.state.wrapping_add(0x9e37_79b9_7f4a_7c15);
        let mut z = self.state;
        z = (z ^ (z >> 30)).wrapping_mul(0xbf58_476d_1ce4_e5b9);
        z = (z ^ (z >> 27)).wrapping_mul(0x94d0_49bb_1331_11eb);
        z ^ (z >> 31)
    }

    /// A number below n, which is not 0.
    pub fn below(&mut self, n: u32) -> u32 {
        (self.word() % u64::from(n)) as u32
    }

    /// A number from low to high, both included.
    pub fn between(&mut self, low: u32, high: u32) -> u32 {
        low + self.below(high - low + 1)
    }

    /// True once in n times.
    pub fn one_in(&mut self, n: u32) -> bool {
        self.below(n) == 0
    }

    pub fn pick<T: Copy>(&mut self, choices: &[T]) -> T {
        choices[self.below(choices.len() as u32) as usize]
    }

    pub fn words(&mut self, n: usize) -> Vec<u64> {
        (0..n).map(|_| self.word()).collect()
    }
}
