//! Repeatable random numbers.
//!
//! The generator is splitmix64 (Steele, Lea and Flood, 2014). A run is repeated by its seed, which
//! the environment variable `ZELMOTAR_SEED` sets.

use std::env;
use std::ops::RangeInclusive;

/// The seed where `ZELMOTAR_SEED` is not set.
const USUAL_SEED: u64 = 1988;

/// A stream of random numbers.
#[derive(Clone, Debug)]
pub struct Random(u64);

impl Random {
    /// The stream of the run's seed for one purpose; streams of different purposes are unrelated.
    pub fn of(purpose: &str) -> Random {
        let mut random = Random(seed());
        for byte in purpose.bytes() {
            random.0 ^= u64::from(byte);
            random.0 = random.next();
        }
        random
    }

    /// The next number of the stream.
    #[allow(clippy::should_implement_trait)] // an endless stream, so no `Option`
    pub fn next(&mut self) -> u64 {
        self.0 = self.0.wrapping_add(0x9e37_79b9_7f4a_7c15);
        let mixed = (self.0 ^ (self.0 >> 30)).wrapping_mul(0xbf58_476d_1ce4_e5b9);
        let mixed = (mixed ^ (mixed >> 27)).wrapping_mul(0x94d0_49bb_1331_11eb);
        mixed ^ (mixed >> 31)
    }

    /// A number below `limit`, which is not 0. The remainder's small bias does not matter here.
    pub fn below(&mut self, limit: usize) -> usize {
        (self.next() % limit as u64) as usize
    }

    /// A number of `range`.
    pub fn within(&mut self, range: RangeInclusive<usize>) -> usize {
        range.start() + self.below(range.end() - range.start() + 1)
    }

    /// True once in `n` times.
    pub fn one_in(&mut self, n: usize) -> bool {
        self.below(n) == 0
    }

    /// One of `choices`.
    pub fn pick<T: Copy>(&mut self, choices: &[T]) -> T {
        choices[self.below(choices.len())]
    }

    /// Any word.
    pub fn word(&mut self) -> u32 {
        self.next() as u32
    }
}

/// The run's seed.
pub fn seed() -> u64 {
    match env::var("ZELMOTAR_SEED") {
        Ok(text) => text.parse().expect("ZELMOTAR_SEED is a whole number"),
        Err(_) => USUAL_SEED,
    }
}
