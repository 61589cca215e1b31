//! Numbers from a seed, the same on every machine: Knuth's linear congruential generator MMIX, by its upper 32 bits.

pub struct Random {
    state: u64,
}

impl Random {
    pub fn new(seed: u32) -> Random {
        Random { state: seed.into() }
    }

    fn word(&mut self) -> u32 {
        let product = self.state.wrapping_mul(6_364_136_223_846_793_005);
        self.state = product.wrapping_add(1_442_695_040_888_963_407);
        (self.state >> 32) as u32
    }

    /// A number below the bound, which is not 0.
    pub fn below(&mut self, bound: u32) -> u32 {
        ((u64::from(self.word()) * u64::from(bound)) >> 32) as u32
    }
}

/// Reckoned apart from this code, by its defining equation.
#[cfg(test)]
#[test]
fn first_numbers_of_seeds() {
    for (seed, below_100) in [(0, [7, 10, 60]), (1, [42, 50, 64]), (u32::MAX, [3, 70, 50])] {
        let mut random = Random::new(seed);
        assert_eq!([100; 3].map(|bound| random.below(bound)), below_100);
    }
    assert_eq!(Random::new(1).below(1), 0);
    assert_eq!(Random::new(0).below(u32::MAX), 335_903_613);
}
