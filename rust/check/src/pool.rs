//! The few addresses and patterns that a trial keeps coming back to, and numbers out of range
//! beside them.

use crate::geometry::Geometry;
use crate::random::Random;

/// Few addresses and few patterns, so that calls meet one another.
pub struct Pool {
    pub addresses: Vec<u32>,
    pub patterns: Vec<u32>,
}

impl Pool {
    pub fn random(random: &mut Random, g: &Geometry) -> Pool {
        let addresses = addresses(random, g);
        let patterns = (0..random.between(1, 4)).map(|_| random_pattern(random, g));
        let mut pool = Pool {
            addresses,
            patterns: patterns.collect(),
        };
        if g.stages() > 1 {
            let mixtures: Vec<u32> = (0..3).map(|_| pool.mixture(random, g)).collect();
            pool.patterns.extend(mixtures);
        }
        pool
    }

    pub fn address(&self, random: &mut Random) -> u32 {
        random.pick(&self.addresses)
    }

    /// A pattern of the pool, at times any other.
    pub fn pattern(&self, random: &mut Random, g: &Geometry) -> u32 {
        match random.below(8) {
            0 => random_pattern(random, g),
            _ => random.pick(&self.patterns),
        }
    }

    /// A pattern of kind 1 of which each stage is that of some pattern of the pool.
    pub fn mixture(&self, random: &mut Random, g: &Geometry) -> u32 {
        let stages = (0..g.stages()).map(|stage| {
            let pattern = random.pick(&self.patterns);
            (g.stage_value(pattern, stage) as u32) << (9 * stage)
        });
        stages.sum()
    }

    /// An address, at times one out of range.
    pub fn any_address(&self, random: &mut Random, g: &Geometry) -> u32 {
        match random.below(16) {
            0 => random.pick(&[g.depth, g.depth + 1, 2 * g.depth, 65_536, u32::MAX]),
            _ => self.address(random),
        }
    }

    /// A pattern, at times one out of range.
    pub fn any_pattern(&self, random: &mut Random, g: &Geometry) -> u32 {
        let over = g.patterns();
        match random.below(16) {
            0 => random.pick(&[over, over + 1, 2 * over, u32::MAX - 1, u32::MAX]),
            _ => self.pattern(random, g),
        }
    }

    /// In kind 1 many keys are mixed from the stages of likely patterns.
    pub fn any_key(&self, random: &mut Random, g: &Geometry) -> u32 {
        match g.stages() > 1 && random.one_in(2) {
            true => self.mixture(random, g),
            false => self.any_pattern(random, g),
        }
    }
}

/// Some address with its neighbours, the ends, the ends of a row's first word, where the last set
/// begins, and any others.
fn addresses(random: &mut Random, g: &Geometry) -> Vec<u32> {
    let last = g.depth - 1;
    let base = random.below(g.depth);
    let word = 64 * g.set_width;
    let last_set = g.addresses_of(g.sets() - 1).start;
    let mut addresses = vec![base, (base + 1).min(last), base.saturating_sub(1)];
    for _ in 0..random.below(6) {
        let any = random.below(g.depth);
        let chosen = random.pick(&[0, last, last_set, word - 1, word, any, base ^ 1]);
        addresses.push(chosen.min(last));
    }
    addresses
}

fn random_pattern(random: &mut Random, g: &Geometry) -> u32 {
    let highest = g.patterns() - 1;
    let any = random.below(g.patterns());
    random.pick(&[0, 1, highest, any, any])
}
