//! The draws of a grouping: SplitMix64, so that a seed gives the same draws on every machine.

use std::collections::hash_map::RandomState;
use std::hash::{BuildHasher, Hasher};

/// Draws by the seed and their number, which are all that is needed to make them again.
#[derive(Clone, Copy, Debug, PartialEq, Eq)]
pub struct Draws {
    pub seed: u64,
    pub count: usize,
}

impl Draws {
    pub fn numbers(self) -> Vec<u32> {
        Generator { state: self.seed }.draws(self.count)
    }
}

/// A seed for a run that names none, of 32 bits, so that it can be typed; the keys of the library's hash tables are the chance in it.
pub fn any_seed() -> u64 {
    RandomState::new().build_hasher().finish() >> 32
}

/// The seed is the state that it starts in; any 64 bits are one.
struct Generator {
    state: u64,
}

impl Generator {
    fn next(&mut self) -> u64 {
        self.state = self.state.wrapping_add(0x9e37_79b9_7f4a_7c15);
        let mut z = self.state;
        z = (z ^ (z >> 30)).wrapping_mul(0xbf58_476d_1ce4_e5b9);
        z = (z ^ (z >> 27)).wrapping_mul(0x94d0_49bb_1331_11eb);
        z ^ (z >> 31)
    }

    /// The upper halves of the next numbers.
    fn draws(mut self, count: usize) -> Vec<u32> {
        (0..count).map(|_| (self.next() >> 32) as u32).collect()
    }
}

#[cfg(test)]
mod tests {
    use super::*;

    /// The numbers that are published for this seed.
    #[test]
    fn splitmix64_gives_its_published_numbers() {
        let mut generator = Generator { state: 1_234_567 };
        let numbers: Vec<u64> = (0..5).map(|_| generator.next()).collect();
        assert_eq!(
            numbers,
            [
                6_457_827_717_110_365_317,
                3_203_168_211_198_807_973,
                9_817_491_932_198_370_423,
                4_593_380_528_125_082_431,
                16_408_922_859_458_223_821,
            ]
        );
    }

    #[test]
    fn a_draw_is_the_upper_half() {
        let draws = Draws {
            seed: 1_234_567,
            count: 2,
        };
        assert_eq!(
            draws.numbers(),
            [
                (6_457_827_717_110_365_317u64 >> 32) as u32,
                (3_203_168_211_198_807_973u64 >> 32) as u32
            ]
        );
    }

    #[test]
    fn any_seed_is_another_one_each_time() {
        let seeds: std::collections::HashSet<u64> = (0..20).map(|_| any_seed()).collect();
        assert!(seeds.len() > 15, "{seeds:?}");
        assert!(seeds.iter().all(|seed| *seed <= u32::MAX as u64));
    }
}
