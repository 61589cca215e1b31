//! A small deterministic generator (splitmix64).

pub struct Random {
    state: u64,
}

impl Random {
    pub fn new(seed: u64) -> Random {
        Random { state: seed }
    }

    fn mixed(&mut self) -> u64 {
        self.state = self.state.wrapping_add(0x9E37_79B9_7F4A_7C15);
        let mut mixed = self.state;
        mixed = (mixed ^ (mixed >> 30)).wrapping_mul(0xBF58_476D_1CE4_E5B9);
        mixed = (mixed ^ (mixed >> 27)).wrapping_mul(0x94D0_49BB_1331_11EB);
        mixed ^ (mixed >> 31)
    }

    /// Any 32 bits.
    pub fn word(&mut self) -> u32 {
        (self.mixed() >> 32) as u32
    }

    /// A number below the bound, which is not 0.
    pub fn below(&mut self, bound: u32) -> u32 {
        ((u64::from(self.word()) * u64::from(bound)) >> 32) as u32
    }

    /// A number from the first to the last, both included.
    pub fn between(&mut self, first: u32, last: u32) -> u32 {
        first + self.below(last - first + 1)
    }

    pub fn one_in(&mut self, count: u32) -> bool {
        self.below(count) == 0
    }

    pub fn pick<T: Copy>(&mut self, choices: &[T]) -> T {
        choices[self.below(choices.len() as u32) as usize]
    }

    /// A word that stands at some edge, or any word.
    pub fn edge_word(&mut self) -> u32 {
        match self.below(6) {
            0 => self.pick(&[0, 1, 2, 3, 4, 15, 16, 0x4000, 0x8000, 0xC000]),
            1 => 0xFFFF_FFFF - self.pick(&[0, 1, 3, 15, 0x4000]),
            2 => 1 << self.below(32),
            3 => !(1 << self.below(32)),
            _ => self.word(),
        }
    }

    /// A torn mask of four words.
    pub fn mask(&mut self) -> [u32; 4] {
        match self.below(5) {
            0 => [0; 4],
            1 => [0xFFFF_FFFF; 4],
            2 => [self.word(), self.word(), self.word(), self.word()],
            3 => {
                let mut mask = [0; 4];
                mask[self.below(4) as usize] = self.edge_word();
                mask
            }
            _ => [
                self.edge_word(),
                self.edge_word(),
                self.edge_word(),
                self.edge_word(),
            ],
        }
    }
}
