//! Eight threads, with expiry, refresh, failing loads, invalidations during loads: what is kept is what the library holds.
mod common;
#[path = "common/random.rs"]
mod random;
use common::within_a_minute;
use random::Random;
use rookdresser::{Fault, GetError, Loading, Setup};
use std::sync::atomic::{AtomicU64, Ordering};
use std::sync::Arc;
use std::time::Duration;

static LIVE: AtomicU64 = AtomicU64::new(0);

struct Value(u64);

impl Value {
    fn new(key: u64) -> Value {
        LIVE.fetch_add(1, Ordering::SeqCst);
        Value(key)
    }
}

impl Drop for Value {
    fn drop(&mut self) {
        LIVE.fetch_sub(1, Ordering::SeqCst);
    }
}

fn requests(cache: &Loading<u64, Value, u64>, clock: &AtomicU64, seed: u64) {
    let mut random = Random::of(seed);
    for _ in 0..12_500 {
        let now = clock.fetch_add(u64::from(random.below(4) == 0), Ordering::SeqCst);
        let key = random.below(2000).min(random.below(2000));
        match random.below(100) {
            0 => drop(cache.drop_key_at(&key, now).unwrap()),
            1 => drop(cache.forget_at(&key, now).unwrap()),
            2..=9 => drop(cache.put_at(&key, Arc::new(Value::new(key)), 1, now).unwrap()),
            10 => drop(cache.clean_at(now).unwrap()),
            11 if random.below(50) == 0 => drop(cache.clear_at(now).unwrap()),
            12..=30 => assert!(cache.look_at(&key, now).unwrap().is_none_or(|value| value.0 == key)),
            what => {
                let got = cache.get_at(&key, now, || {
                    if what > 95 {
                        return Err(key);
                    }
                    if what > 90 {
                        cache.drop_key_at(&key, now).unwrap();
                    } else if what > 85 {
                        std::thread::yield_now();
                    }
                    Ok((Value::new(key), (key % 20) as u32))
                });
                match got {
                    Ok(value) => assert_eq!(value.0, key),
                    Err(GetError::Load(error)) => assert_eq!(*error, key),
                    Err(other) => assert_eq!(other, GetError::Refused(Fault::TooManyFlights)),
                }
            }
        }
    }
}

#[test]
fn after_a_hundred_thousand_requests_exactly_what_is_held_is_kept() {
    let setup = Setup::of(500)
        .flights(64)
        .bound(4000)
        .after_write(Duration::from_millis(1500))
        .refresh(Duration::from_millis(600));
    for shards in [1, 4] {
        let cache = within_a_minute(move || {
            let (cache, clock) = (Loading::sharded(shards, &setup).unwrap(), AtomicU64::new(0));
            std::thread::scope(|s| {
                for seed in 0..8 {
                    let (cache, clock) = (&cache, &clock);
                    s.spawn(move || requests(cache, clock, seed));
                }
            });
            cache
        });
        let (n, stats) = (cache.numbers(), cache.stats());
        println!("{shards} shards: {} entries, kept {:?}, {stats:?}", n.entries, cache.kept());
        assert_eq!((cache.kept(), n.flights), ((n.entries as usize, n.entries as usize), 0));
        assert_eq!(LIVE.load(Ordering::SeqCst), n.entries);
        // The two sides count alike.
        assert_eq!((stats.hits, stats.misses, stats.failed), (n.hits, n.misses, n.failed));
        assert_eq!(stats.expired + stats.size, n.evicted);
        assert!(stats.loads > 0 && stats.refreshes > 0 && stats.loose > 0 && stats.expired > 0);
        assert!(n.entries > 0 && n.entries <= 500 * shards as u64);
        drop(cache);
        assert_eq!(LIVE.load(Ordering::SeqCst), 0);
    }
}
