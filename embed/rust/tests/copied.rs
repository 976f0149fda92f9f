//! Values that are copied, in place of shares of them.
use rookdresser::{GetError, Loading, Setup, Stats};
use std::hash::{Hash, Hasher};
use std::sync::atomic::{AtomicU64, Ordering::SeqCst};
use std::time::Duration;

// A key of the caller's, of which two have one hash.
#[derive(Clone, PartialEq, Eq)]
struct Coarse(u64);

impl Hash for Coarse {
    fn hash<H: Hasher>(&self, state: &mut H) {
        state.write_u64(self.0 / 2);
    }
}

fn counted(stats: Stats) -> (u64, u64, u64) {
    (stats.hits, stats.misses, stats.loads)
}

#[test]
fn copies_are_the_values_and_count_as_hits() {
    let cache = Loading::<Coarse, u64, ()>::sharded(1, &Setup::of(8)).unwrap();
    (0..3).for_each(|key| cache.store(&Coarse(key), 10 + key, 1).unwrap());
    // The first two share a hash, so that their hits take the lock.
    for key in [0, 1, 2, 2] {
        assert_eq!(cache.look_copied(&Coarse(key)), Ok(Some(10 + key)));
        assert_eq!(cache.get_copied(&Coarse(key), || unreachable!("it is there")), Ok(10 + key));
    }
    assert_eq!(cache.look_copied(&Coarse(4)), Ok(None));
    assert_eq!(cache.get_copied(&Coarse(4), || Ok((14, 1))), Ok(14));
    assert_eq!(counted(cache.stats()), (8, 2, 1));
    assert_eq!(cache.get_copied(&Coarse(6), || Err(())), Err(GetError::Load(().into())));
    assert_eq!((cache.look_copied(&Coarse(6)), cache.kept()), (Ok(None), (4, 4)));
}

#[test]
fn no_copy_of_an_expired_value_is_returned() {
    let cache = Loading::<u64, u64, ()>::sharded(1, &Setup::of(8).after_write(Duration::from_millis(10))).unwrap();
    cache.store_at(&1, 7, 1, 100).unwrap();
    for now in [100, 109, 109, 50] {
        assert_eq!(cache.look_copied_at(&1, now), Ok(Some(7)));
        assert_eq!(cache.get_copied_at(&1, now, || unreachable!("it is there")), Ok(7));
    }
    assert_eq!((cache.look_copied_at(&1, 110), cache.kept()), (Ok(None), (0, 0)));
    assert_eq!(cache.get_copied_at(&1, 110, || Ok((8, 1))), Ok(8));
}

// Pairs whose halves belong together, and versions that only grow: no copy is torn, or of a value that had left before.
#[test]
fn no_copy_is_torn_or_stale() {
    const KEYS: u64 = 24;
    let cache = Loading::<u64, (u64, u64), ()>::sharded(2, &Setup::of(16)).unwrap();
    let least: Vec<AtomicU64> = (0..KEYS).map(|_| AtomicU64::new(0)).collect();
    std::thread::scope(|threads| {
        for thread in 0..4 {
            let (cache, least) = (&cache, &least);
            threads.spawn(move || {
                for call in 0..40_000 {
                    let key = (call * 7 + thread) % KEYS;
                    let before = least[key as usize].load(SeqCst);
                    match call % 16 {
                        0 if key % 4 == thread => {
                            cache.store(&key, (call, !call), 1).unwrap();
                            least[key as usize].store(call, SeqCst);
                        }
                        8 if key % 4 == thread => drop(cache.drop_key(&key).unwrap()),
                        _ => {
                            let Some((version, check)) = cache.look_copied(&key).unwrap() else { continue };
                            assert!(version == !check && version >= before, "{version} of {before}");
                        }
                    }
                }
            });
        }
    });
    assert!(cache.stats().hits > 1000);
}
