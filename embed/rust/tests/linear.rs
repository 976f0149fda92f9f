//! Eight threads write versions that only grow, and read: no call returns an older version than one that was there before it began.
mod common;
#[path = "common/random.rs"]
mod random;
use common::within_a_minute;
use random::Random;
use rookdresser::{Loading, Reads, Setup};
use std::hash::{Hash, Hasher};
use std::sync::atomic::{AtomicU64, Ordering::SeqCst};
use std::sync::{Arc, Mutex};
use std::time::Duration;

// A key that isn't of the standard library's, of which two have one hash.
#[derive(Clone, PartialEq, Eq)]
struct Coarse(u64);

impl Hash for Coarse {
    fn hash<H: Hasher>(&self, state: &mut H) {
        state.write_u64(self.0 / 2);
    }
}

// What a key's loads read. The version is first raised here, and `stored` follows once the cache was told.
#[derive(Default)]
struct Source {
    writes: Mutex<()>,
    version: AtomicU64,
    stored: AtomicU64,
}

impl Source {
    // Raises the version, and tells the cache in one way or another.
    fn write(&self, tell: impl FnOnce(u64)) {
        let _one_at_a_time = self.writes.lock().unwrap();
        let version = self.version.fetch_add(1, SeqCst) + 1;
        tell(version);
        self.stored.store(version, SeqCst);
    }
}

fn calls<K: Hash + Eq + Clone>(cache: &Loading<K, u64, ()>, sources: &[Source], key_of: fn(u64) -> K, seed: u64) {
    let mut random = Random::of(seed);
    for now in 0..10_000 {
        let number = random.below(sources.len() as u64);
        let (key, source) = (key_of(number), &sources[number as usize]);
        let before = source.stored.load(SeqCst);
        match random.below(24) {
            0 => source.write(|version| cache.store_at(&key, Arc::new(version), 1, now).unwrap()),
            1 => source.write(|_| drop(cache.drop_key_at(&key, now).unwrap())),
            // The load may join none that began before.
            2 => source.write(|version| {
                cache.forget_at(&key, now).unwrap();
                drop(cache.put_at(&key, Arc::new(version), 1, now).unwrap());
            }),
            20 => source.write(|version| {
                drop(cache.drop_key_at(&key, now).unwrap());
                assert_eq!(*cache.get_or_insert_at(&key, Arc::new(version), 1, now).unwrap(), version);
            }),
            21..=23 => {
                let numbers = [0, 1, 2].map(|more| (number + more) % sources.len() as u64);
                let (keys, before) = (numbers.map(key_of), numbers.map(|n| sources[n as usize].stored.load(SeqCst)));
                let found = cache.get_many_at(&keys, now, |absent| {
                    let places = absent.iter().map(|&key| keys.iter().position(|other| other == key).unwrap());
                    let read = |place: usize| sources[numbers[place] as usize].version.load(SeqCst);
                    let loaded = places.map(|place| (keys[place].clone(), (read(place), 1))).collect();
                    std::thread::yield_now();
                    Ok(loaded)
                });
                let found = found.unwrap();
                assert!((0..3).all(|place| *found[&keys[place]] >= before[place]));
            }
            3..=9 => assert!(cache.look_at(&key, now).unwrap().is_none_or(|version| *version >= before)),
            _ => {
                let got = cache.get_at(&key, now, || {
                    let version = source.version.load(SeqCst);
                    match random.below(20) {
                        // A load whose key is written meanwhile stores nothing.
                        0 => source.write(|_| drop(cache.drop_key_at(&key, now).unwrap())),
                        1..=9 => std::thread::yield_now(),
                        _ => {}
                    }
                    Ok((version, 1))
                });
                assert!(*got.unwrap() >= before);
            }
        }
    }
}

fn only_grow<K: Hash + Eq + Clone + Send + Sync + 'static>(key_of: fn(u64) -> K) {
    for (shards, reads) in [(1, Reads::Shared), (2, Reads::Shared), (2, Reads::Exact)] {
        // Four entries for six keys, which are due at times.
        let setup = Setup::of(4 / shards).refresh(Duration::from_millis(5)).after_write(Duration::from_millis(40));
        within_a_minute(move || {
            let cache = Loading::sharded(shards as usize, &setup).unwrap().with_reads(reads);
            let sources: Vec<_> = (0..6).map(|_| Source::default()).collect();
            std::thread::scope(|threads| {
                for seed in 0..8 {
                    let (cache, sources) = (&cache, &sources);
                    threads.spawn(move || calls(cache, sources, key_of, seed));
                }
            });
            let (numbers, stats) = (cache.numbers(), cache.stats());
            assert_eq!((cache.kept(), numbers.flights), ((numbers.entries as usize, numbers.entries as usize), 0));
            assert!(stats.loose > 0 && stats.refreshes > 0 && stats.replaced > 0 && stats.size > 0, "{stats:?}");
        });
    }
}

#[test]
fn no_call_returns_an_older_version_than_was_there_before() {
    only_grow(|number| number);
    only_grow(Coarse);
}
