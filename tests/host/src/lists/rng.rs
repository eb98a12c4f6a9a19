// A small deterministic source of random numbers (splitmix64) and the
// settings of the tests: SKY_SEED and the counts, from the environment.

use std::env::var;

pub struct Rng(u64);

impl Rng {
    /// Input number `index` of a test; the same whatever ran before it.
    pub fn for_input(seed: u64, index: u64) -> Rng {
        let mut rng = Rng(seed ^ index.wrapping_mul(0xd6e8_feb8_6659_fd93));
        Rng(rng.any())
    }

    pub fn any(&mut self) -> u64 {
        self.0 = self.0.wrapping_add(0x9e37_79b9_7f4a_7c15);
        let mut z = self.0;
        z = (z ^ (z >> 30)).wrapping_mul(0xbf58_476d_1ce4_e5b9);
        z = (z ^ (z >> 27)).wrapping_mul(0x94d0_49bb_1331_11eb);
        z ^ (z >> 31)
    }

    /// 0 to limit - 1
    pub fn below(&mut self, limit: u32) -> u32 {
        (((self.any() >> 32) * u64::from(limit)) >> 32) as u32
    }

    /// low to high, both included
    pub fn from_to(&mut self, low: u32, high: u32) -> u32 {
        low + self.below(high - low + 1)
    }

    /// A place in something of `len` entries.
    pub fn place(&mut self, len: usize) -> usize {
        self.below(len as u32) as usize
    }

    pub fn one_of<T: Copy>(&mut self, choices: &[T]) -> T {
        choices[self.place(choices.len())]
    }

    /// True once in `often` times.
    pub fn once_in(&mut self, often: u32) -> bool {
        self.below(often) == 0
    }

    pub fn shuffle<T>(&mut self, entries: &mut [T]) {
        for last in (1..entries.len()).rev() {
            entries.swap(last, self.place(last + 1));
        }
    }

    pub fn fill(&mut self, bytes: &mut [u8]) {
        for chunk in bytes.chunks_mut(8) {
            chunk.copy_from_slice(&self.any().to_le_bytes()[..chunk.len()]);
        }
    }
}

/// A decimal number from the environment, or the default.
pub fn setting(name: &str, default: u64) -> u64 {
    match var(name) {
        Ok(text) => text
            .parse()
            .unwrap_or_else(|_| panic!("{name} is not a number")),
        Err(_) => default,
    }
}

pub fn seed() -> u64 {
    setting("SKY_SEED", 1991)
}
