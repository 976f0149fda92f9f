//! How `Loading::open` divides a setup among shards.
use crate::Setup;

// So many that a thread seldom finds its shard's lock taken.
const SHARDS_FOR_A_CORE: usize = 8;
// A shard evicts early if the keys' hashes give it more than its part: 128 keys vary by 11 or so.
const LEAST_ENTRIES: u32 = 128;
// A fixed window has a hundredth of the entries, unless it is given. Of 128 entries that is one: too little for bursts, of which a cache
// of 4,096 entries then hit 86 % in place of 91.
const LEAST_ENTRIES_WITH_A_FIXED_WINDOW: u32 = 512;
/// How many entries a shard may hold.
pub(crate) const MOST_ENTRIES: u32 = 1 << 16;
/// How many shards there may be.
pub(crate) const MOST_SHARDS: u32 = 1 << 12;

/// The setup of each shard, for a machine of so many cores: eight shards for each, but no shard of fewer than 128 entries, or 512 if its
/// window is fixed, and none of more than 65,536. One alone if the weight has a bound. The whole setup is within its ranges. Each part
/// has the window for a cache whose window is fixed.
pub(crate) fn parts(setup: &Setup, cores: usize) -> Vec<Setup> {
    if setup.has_bound() {
        return vec![*setup];
    }
    let (entries, window) = (setup.entries, setup.fixed_window());
    let wanted = u32::try_from(cores.saturating_mul(SHARDS_FOR_A_CORE)).unwrap_or(u32::MAX).min(MOST_SHARDS);
    let least = if setup.is_adaptive(entries) { LEAST_ENTRIES } else { LEAST_ENTRIES_WITH_A_FIXED_WINDOW };
    let shards = wanted.min(entries / least).max(entries.div_ceil(MOST_ENTRIES)).max(1);
    let window = |shard| Some(part(window, shards, shard).max(1));
    let part = |shard| Setup { entries: part(entries, shards, shard), window: window(shard), ..*setup };
    (0..shards).map(part).collect()
}

/// The part that one of some shards gets of a number.
pub(crate) fn part(of: u32, shards: u32, shard: u32) -> u32 {
    of / shards + u32::from(shard < of % shards)
}

#[cfg(test)]
mod tests {
    use super::parts;
    use crate::Setup;

    fn of(setup: Setup, cores: usize) -> (usize, Vec<(u32, u32)>) {
        let parts = parts(&setup, cores);
        let mut different: Vec<_> = parts.iter().map(|part| (part.entries, part.fixed_window())).collect();
        different.dedup();
        (parts.len(), different)
    }

    #[test]
    fn a_setup_is_divided_by_cores_and_entries() {
        assert_eq!(of(Setup::of(255), 4), (1, vec![(255, 2)]));
        assert_eq!(of(Setup::of(257), 4), (2, vec![(129, 1), (128, 1)]));
        assert_eq!(of(Setup::of(1000), 4), (7, vec![(143, 2), (143, 1), (142, 1)]));
        assert_eq!(of(Setup::of(4096), 4), (32, vec![(128, 2), (128, 1)]));
        assert_eq!(of(Setup::of(16_384), 4), (32, vec![(512, 6), (512, 5)]));
        assert_eq!(of(Setup::of(16_384), 1), (8, vec![(2048, 21), (2048, 20)]));
        // More than one cache of the library's may hold.
        assert_eq!(of(Setup::of(1 << 20), 1), (16, vec![(65_536, 656), (65_536, 655)]));
        assert_eq!(of(Setup::of((1 << 20) + 1), 1).0, 17);
        // Each shard has a window.
        assert_eq!(of(Setup { window: Some(3), ..Setup::of(8192) }, 4), (16, vec![(512, 1)]));
    }

    #[test]
    fn a_shard_whose_window_is_fixed_has_512_entries_or_more() {
        let fixed = |entries| Setup { adaptive: Some(false), ..Setup::of(entries) };
        assert_eq!(of(fixed(1023), 4), (1, vec![(1023, 10)]));
        assert_eq!(of(fixed(1025), 4), (2, vec![(513, 5), (512, 5)]));
        assert_eq!(of(fixed(4000), 4), (7, vec![(572, 6), (571, 6), (571, 5)]));
        assert_eq!(of(fixed(16_384), 4), (32, vec![(512, 6), (512, 5)]));
        assert_eq!(of(Setup { window: Some(10), ..Setup::of(1023) }, 4), (1, vec![(1023, 10)]));
        // No window follows in a cache of more than 4,194,304 entries.
        assert_eq!(of(Setup::of(1 << 23), 4), (128, vec![(65_536, 656), (65_536, 655)]));
    }

    #[test]
    fn a_bound_is_never_divided() {
        let bounded = Setup { bound: 1 << 20, ..Setup::of(16_384) };
        assert_eq!(parts(&bounded, 4), [bounded]);
    }

    #[test]
    fn there_are_4096_shards_at_most() {
        let most = Setup::of(4096 * 65_536);
        assert_eq!(of(most, 4), (4096, vec![(65_536, 656), (65_536, 655)]));
        assert_eq!(of(most, 100_000).0, 4096);
        assert_eq!(of(Setup::of(1 << 24), 100_000), (4096, vec![(4096, 41), (4096, 40)]));
    }
}
