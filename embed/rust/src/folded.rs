//! A hasher that is cheaper than SipHash.
use std::collections::hash_map::RandomState;
use std::hash::{BuildHasher, Hasher};

/// Hashes keys by a folded multiply under a random seed, which takes fewer instructions than SipHash: a fifteenth for a number.
///
/// It is enough against strangers who see neither hashes nor times. Those who can time many calls may find keys of one hash, and aim at
/// the cache's tables: keep the default for keys that they choose. It spreads over all 64 bits.
///
/// ```
/// use rookdresser::{Folded, Loading, Setup};
///
/// let cache = Loading::<u64, u64, (), _>::with_hasher(&Setup::of(100), Folded::new())?;
/// cache.store(&1, 7, 1)?;
/// assert_eq!(cache.look(&1)?.as_deref(), Some(&7));
/// # Ok::<(), Box<dyn std::error::Error>>(())
/// ```
#[derive(Clone, Debug)]
pub struct Folded {
    seed: u64,
    factor: u64,
}

impl Folded {
    /// A hasher with a seed of its own.
    ///
    /// ```
    /// # use rookdresser::Folded;
    /// use std::hash::BuildHasher;
    ///
    /// let folded = Folded::new();
    /// assert_eq!(folded.hash_one("a"), folded.clone().hash_one("a"));
    /// ```
    pub fn new() -> Folded {
        let random = RandomState::new();
        // An even factor would lose a bit, and one of few bits mixes little.
        Folded { seed: random.hash_one(0), factor: random.hash_one(1) | 1 << 63 | 1 }
    }
}

impl Default for Folded {
    fn default() -> Folded {
        Folded::new()
    }
}

impl BuildHasher for Folded {
    type Hasher = FoldedHasher;

    #[inline]
    fn build_hasher(&self) -> FoldedHasher {
        FoldedHasher { state: self.seed, factor: self.factor }
    }
}

/// What hashes one key for [`Folded`].
#[derive(Debug)]
pub struct FoldedHasher {
    state: u64,
    factor: u64,
}

impl FoldedHasher {
    // The halves of a product, put together.
    #[inline]
    fn add(&mut self, word: u64) {
        let product = u128::from(self.state ^ word) * u128::from(self.factor);
        self.state = product as u64 ^ (product >> 64) as u64;
    }
}

impl Hasher for FoldedHasher {
    #[inline]
    fn finish(&self) -> u64 {
        // Once more, since the last word's lowest bits reach few others otherwise.
        let product = u128::from(self.state) * 0x9E37_79B9_7F4A_7C15;
        product as u64 ^ (product >> 64) as u64
    }

    #[inline]
    fn write(&mut self, bytes: &[u8]) {
        let mut words = bytes.chunks_exact(8);
        for word in &mut words {
            self.add(u64::from_le_bytes(word.try_into().expect("8 bytes")));
        }
        let (rest, mut last) = (words.remainder(), [0; 8]);
        last[..rest.len()].copy_from_slice(rest);
        // With the length, since zeros may be bytes of the key.
        self.add(u64::from_le_bytes(last) ^ (bytes.len() as u64) << 56);
    }

    #[inline]
    fn write_u8(&mut self, number: u8) {
        self.add(number.into());
    }

    #[inline]
    fn write_u16(&mut self, number: u16) {
        self.add(number.into());
    }

    #[inline]
    fn write_u32(&mut self, number: u32) {
        self.add(number.into());
    }

    #[inline]
    fn write_u64(&mut self, number: u64) {
        self.add(number);
    }

    #[inline]
    fn write_u128(&mut self, number: u128) {
        self.add(number as u64);
        self.add((number >> 64) as u64);
    }

    #[inline]
    fn write_usize(&mut self, number: usize) {
        self.add(number as u64);
    }
}

#[cfg(test)]
mod tests {
    use super::Folded;
    use std::collections::HashSet;
    use std::hash::{BuildHasher, Hash};

    // Each bit is set in about half of the hashes: in 3,500 to 4,692 of 8,192, which is more than 13 standard deviations.
    fn spreads<K: Hash>(keys: impl Fn(u64) -> K) {
        let folded = Folded::new();
        let hashes: Vec<_> = (0..8192).map(|of| folded.hash_one(keys(of))).collect();
        for bit in 0..64 {
            let set = hashes.iter().filter(|hash| *hash >> bit & 1 == 1).count();
            assert!((3500..=4692).contains(&set), "bit {bit} is set in {set}");
        }
        let [low, high] =
            [0, 32].map(|shift| hashes.iter().map(|hash| hash >> shift & 8191).collect::<HashSet<_>>().len());
        // Of 8,192 chains 5,178 have a key if all are as likely.
        assert!(low > 4700 && high > 4700, "{low}, {high}");
        assert_eq!(hashes.iter().collect::<HashSet<_>>().len(), 8192);
    }

    #[test]
    fn hashes_spread_over_all_bits() {
        spreads(|of| of);
        spreads(|of| of << 40);
        spreads(|of| of as u32);
        spreads(|of| (of as u16, of as u8));
        spreads(|of| u128::from(of) << 64);
        spreads(|of| of as usize * 8);
        spreads(|of| format!("key {of}"));
        spreads(|of| of.to_be_bytes().to_vec());
    }

    #[test]
    fn seeds_differ_and_zeros_at_the_end_count() {
        assert_ne!(Folded::new().hash_one(7), Folded::new().hash_one(7));
        let folded = Folded::default();
        assert_eq!(folded.hash_one("a"), folded.clone().hash_one("a"));
        let zeros: HashSet<_> = (0..40).map(|length| folded.hash_one(&[0u8; 40][..length])).collect();
        assert_eq!(zeros.len(), 40);
    }
}
