//! Seeded draws, by splitmix64: the seed that a report names gives the same inputs again.

pub struct Draws {
    state: u64,
}

impl Draws {
    pub fn seeded(seed: u64) -> Draws {
        Draws { state: seed }
    }

    /// Any 64-bit word.
    fn long_word(&mut self) -> u64 {
        self.state = self.state.wrapping_add(0x9E37_79B9_7F4A_7C15);
        let mut mixed = self.state;
        mixed = (mixed ^ (mixed >> 30)).wrapping_mul(0xBF58_476D_1CE4_E5B9);
        mixed = (mixed ^ (mixed >> 27)).wrapping_mul(0x94D0_49BB_1331_11EB);
        mixed ^ (mixed >> 31)
    }

    /// Any 32-bit word.
    pub fn word(&mut self) -> u32 {
        (self.long_word() >> 32) as u32
    }

    /// A number below the bound, which is at least 1.
    pub fn below(&mut self, bound: usize) -> usize {
        (self.long_word() % bound as u64) as usize
    }

    /// A number from low to high, both included.
    pub fn between(&mut self, low: u32, high: u32) -> u32 {
        let count = u64::from(high) - u64::from(low) + 1;
        (u64::from(low) + self.long_word() % count) as u32
    }

    /// True once in so many draws.
    pub fn once_in(&mut self, times: usize) -> bool {
        self.below(times) == 0
    }

    /// One of these, which are at least one.
    pub fn pick<T: Copy>(&mut self, from: &[T]) -> T {
        from[self.below(from.len())]
    }
}
