//! Streams of keys, the same for the same seed.
use super::random::Random;
use std::hash::{BuildHasher, Hasher};

/// Hashes numbers by one seed, so that the windows of a stream are the same in each run.
#[derive(Clone, Default)]
pub struct OneSeed(u64);

impl BuildHasher for OneSeed {
    type Hasher = OneSeed;

    fn build_hasher(&self) -> OneSeed {
        self.clone()
    }
}

impl Hasher for OneSeed {
    fn finish(&self) -> u64 {
        self.0
    }

    fn write(&mut self, _: &[u8]) {
        unreachable!("the keys are numbers")
    }

    fn write_u64(&mut self, number: u64) {
        let product = u128::from(number ^ 0x2545_F491_4F6C_DD1D) * 0x9E37_79B9_7F4A_7C15;
        self.0 = product as u64 ^ (product >> 64) as u64;
    }
}

/// Keys of which each is used ten times, with others between, and then never again: the wider the window, the more of them hit.
pub fn passing(looks: u64, entries: u64, seed: u64) -> impl Iterator<Item = u64> {
    let mut random = Random::of(seed);
    (0..looks).map(move |look| 1_000_000 + look / 10 + random.below(entries * 3 / 4))
}

/// Keys of which the same few stay popular, among many that are used once: a narrow window is best.
pub fn popular(looks: u64, entries: u64, seed: u64) -> impl Iterator<Item = u64> {
    let mut random = Random::of(seed);
    (0..looks)
        .map(move |look| if random.below(4) == 0 { 1000 + random.below(entries * 3 / 4) } else { 10_000_000 + look })
}
