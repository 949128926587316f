//! Pseudo-random numbers that depend on a seed alone (SplitMix64).

pub struct Numbers(u64);

impl Numbers {
    /// The numbers of one sequence: neighbouring sequences share nothing, and each can be made again by itself.
    pub fn new(seed: u64, sequence: u64) -> Numbers {
        let mut numbers = Numbers(seed);
        Numbers(numbers.word() ^ sequence.wrapping_mul(0xD134_2543_DE82_EF95))
    }

    pub fn word(&mut self) -> u64 {
        self.0 = self.0.wrapping_add(0x9E37_79B9_7F4A_7C15);
        let mixed = (self.0 ^ self.0 >> 30).wrapping_mul(0xBF58_476D_1CE4_E5B9);
        let mixed = (mixed ^ mixed >> 27).wrapping_mul(0x94D0_49BB_1331_11EB);
        mixed ^ mixed >> 31
    }

    pub fn byte(&mut self) -> u8 {
        self.word() as u8
    }

    /// A number below the limit.
    pub fn below(&mut self, limit: u64) -> u64 {
        self.word() % limit
    }

    /// A number from the first to the last, both included.
    pub fn between(&mut self, first: u64, last: u64) -> u64 {
        first + self.below(last - first + 1)
    }

    /// True so many times in a hundred.
    pub fn chance(&mut self, percent: u64) -> bool {
        self.below(100) < percent
    }

    pub fn pick<T: Copy>(&mut self, from: &[T]) -> T {
        from[self.below(from.len() as u64) as usize]
    }
}
