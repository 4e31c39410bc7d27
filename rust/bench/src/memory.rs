//! The memories that calls are timed on.

use crate::random::Random;
use cam::{Geometry, CASCADED};

#[derive(Clone)]
pub struct Memory {
    pub geometry: Geometry,
    pub store: Vec<u32>,
    pub indicators: Vec<u64>,
}

impl Memory {
    /// Address a holds pattern number a / 2 rounded down.
    pub fn filled(kind: u32, depth: u32, pattern_width: u32, set_width: u32) -> Memory {
        let mut memory = Memory::empty(kind, depth, pattern_width, set_width);
        for address in 0..depth {
            memory.write(address, memory.pattern(address / 2));
        }
        memory
    }

    /// Half of the addresses hold a pattern, the others none. Which ones do, and which patterns they
    /// are, follows no rule that a loop could profit from.
    pub fn half_full(kind: u32, depth: u32, pattern_width: u32, set_width: u32) -> Memory {
        let mut memory = Memory::empty(kind, depth, pattern_width, set_width);
        let mut random = Random::new();
        let mut addresses: Vec<u32> = (0..depth).collect();
        random.shuffle(&mut addresses);
        for &address in &addresses[..addresses.len() / 2] {
            memory.write(address, random.bits(pattern_width));
        }
        memory
    }

    fn empty(kind: u32, depth: u32, pattern_width: u32, set_width: u32) -> Memory {
        let geometry = Geometry {
            kind,
            depth,
            pattern_width,
            set_width,
        };
        let mut store = vec![0; depth as usize];
        let mut indicators = vec![0; geometry.indicator_words().expect("a geometry")];
        geometry.clear(&mut store, &mut indicators).expect("clear");
        Memory {
            geometry,
            store,
            indicators,
        }
    }

    fn write(&mut self, address: u32, pattern: u32) {
        self.geometry
            .write(&mut self.store, &mut self.indicators, address, pattern)
            .expect("write");
    }

    /// The numbers of the stored patterns of a filled memory are those below this.
    pub fn stored(&self) -> u32 {
        self.geometry.depth / 2
    }

    /// In kind 1 the numbers are spread over all stages, by a factor that keeps them apart.
    pub fn pattern(&self, number: u32) -> u32 {
        match self.geometry.kind {
            CASCADED => number.wrapping_mul(0x0135_79bd) % (1 << 27),
            _ => number,
        }
    }

    pub fn first_match(&self, key: u32) -> u32 {
        let code = cam::raw::first_match(self.geometry, &self.store, &self.indicators, key);
        (code - 256) as u32 & 0xffff
    }
}
