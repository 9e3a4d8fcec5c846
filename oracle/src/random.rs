//! A small generator of numbers for cases, so that a case is a function of its name alone.

/// SplitMix64.
#[derive(Clone, Debug)]
pub struct Random {
    state: u64,
}

impl Random {
    /// The operation takes part, so that the same seed and index give unrelated cases.
    pub fn new(seed: u64, operation: u64, index: u64) -> Self {
        let mut random = Self { state: seed };
        for part in [operation, index] {
            random.state = random.next_u64() ^ part.wrapping_mul(0xa076_1d64_78bd_642f);
        }
        random
    }

    pub fn next_u64(&mut self) -> u64 {
        self.state = self.state.wrapping_add(0x9e37_79b9_7f4a_7c15);
        let mut z = self.state;
        z = (z ^ (z >> 30)).wrapping_mul(0xbf58_476d_1ce4_e5b9);
        z = (z ^ (z >> 27)).wrapping_mul(0x94d0_49bb_1331_11eb);
        z ^ (z >> 31)
    }

    pub fn next_u32(&mut self) -> u32 {
        (self.next_u64() >> 32) as u32
    }

    /// A number below `bound`, which is above zero.
    pub fn below(&mut self, bound: u32) -> u32 {
        ((self.next_u32() as u64 * bound as u64) >> 32) as u32
    }

    /// A number from `low` to `high`, both included.
    pub fn between(&mut self, low: u32, high: u32) -> u32 {
        low + self.below(high - low + 1)
    }

    /// As `between`, with small ones more often, since most behaviour shows on small sizes.
    pub fn small(&mut self, low: u32, high: u32) -> u32 {
        let most = self.between(low, high);
        self.between(low, most)
    }

    /// True once in `times`.
    pub fn once_in(&mut self, times: u32) -> bool {
        self.below(times) == 0
    }

    pub fn choose<T: Copy>(&mut self, from: &[T]) -> T {
        from[self.below(from.len() as u32) as usize]
    }

    /// A float from `low` up to `high`.
    pub fn float(&mut self, low: f32, high: f32) -> f32 {
        let unit = (self.next_u32() >> 8) as f32 / 16_777_216.0;
        low + (high - low) * unit
    }
}
