//! Eight threads whose loaders, listeners, keys and values panic at times and use the cache: it stays whole.
mod common;
#[path = "common/random.rs"]
mod random;
use common::within_a_minute;
use random::Random;
use rookdresser::{Loading, Setup};
use std::cell::Cell;
use std::hash::{Hash, Hasher};
use std::panic::{catch_unwind, AssertUnwindSafe};
use std::sync::atomic::{AtomicBool, AtomicU64, Ordering::SeqCst};
use std::sync::{Arc, OnceLock};
use std::time::Duration;

type Cache = Loading<Key, Value, ()>;

static CACHE: OnceLock<Cache> = OnceLock::new();
static IS_CALM: AtomicBool = AtomicBool::new(false);
static VALUES: AtomicU64 = AtomicU64::new(0);
static PANICS: AtomicU64 = AtomicU64::new(0);

thread_local! {
    static RANDOM: Cell<u64> = const { Cell::new(0) };
    static IS_WITHIN: Cell<bool> = const { Cell::new(false) };
}

fn below(limit: u64) -> u64 {
    let mut random = Random(RANDOM.get());
    let number = random.below(limit);
    RANDOM.set(random.0);
    number
}

// What each callback does: it panics, or makes a call of the cache, or neither. One within another does nothing.
fn strikes() {
    if IS_CALM.load(SeqCst) || std::thread::panicking() || IS_WITHIN.get() {
        return;
    }
    match below(60) {
        0 => {
            PANICS.fetch_add(1, SeqCst);
            std::panic::resume_unwind(Box::new("of a callback"));
        }
        1 => {
            IS_WITHIN.set(true);
            drop(catch_unwind(|| call(CACHE.get().unwrap())));
            IS_WITHIN.set(false);
        }
        _ => {}
    }
}

#[derive(Debug)]
struct Key(u64);

impl Hash for Key {
    fn hash<H: Hasher>(&self, state: &mut H) {
        strikes();
        state.write_u64(self.0 / 2);
    }
}

impl PartialEq for Key {
    fn eq(&self, other: &Key) -> bool {
        strikes();
        self.0 == other.0
    }
}

impl Eq for Key {}

impl Clone for Key {
    fn clone(&self) -> Key {
        strikes();
        Key(self.0)
    }
}

impl Drop for Key {
    fn drop(&mut self) {
        strikes();
    }
}

struct Value(u64);

impl Value {
    fn of(key: &Key) -> Value {
        Value::numbered(key.0)
    }

    fn numbered(number: u64) -> Value {
        VALUES.fetch_add(1, SeqCst);
        Value(number)
    }
}

impl Drop for Value {
    fn drop(&mut self) {
        VALUES.fetch_sub(1, SeqCst);
        strikes();
    }
}

fn call(cache: &Cache) {
    let (key, now) = (Key(below(60)), below(1000));
    match below(10) {
        0 => drop(cache.drop_key_at(&key, now).unwrap()),
        1 => drop(cache.forget_at(&key, now).unwrap()),
        2 => drop(cache.put_at(&key, Arc::new(Value::of(&key)), 1, now).unwrap()),
        3 => cache.store_at(&key, Arc::new(Value::of(&key)), 1, now).unwrap(),
        4 => assert!(cache.look_at(&key, now).unwrap().is_none_or(|value| value.0 == key.0)),
        5 if below(50) == 0 => drop(cache.clear_at(now).unwrap()),
        5 => {
            let value = cache.get_or_insert_at(&key, Arc::new(Value::of(&key)), 1, now);
            assert_eq!(value.unwrap().0, key.0);
        }
        6 => {
            let keys = [key, Key(below(60)), Key(below(60))];
            let got = cache.get_many_at(&keys, now, |absent| {
                strikes();
                match below(20) {
                    0 => Err(()),
                    // It leaves out some, and returns some that nobody asked for.
                    1 => Ok([61, 62].map(|key| (Key(key), (Value::numbered(key), 1))).into()),
                    _ => Ok(absent.iter().map(|key| (Key(key.0), (Value::of(key), 1))).collect()),
                }
            });
            // A map whose value panics as it is dropped doesn't drop the others.
            for (key, value) in got.into_iter().flatten() {
                assert_eq!(value.0, key.0);
                drop(catch_unwind(AssertUnwindSafe(|| drop(value))));
            }
        }
        _ => {
            let got = cache.get_at(&key, now, || {
                strikes();
                if below(20) == 0 {
                    Err(())
                } else {
                    Ok((Value::of(&key), 1 + below(30) as u32))
                }
            });
            assert!(got.map_or(true, |value| value.0 == key.0));
        }
    }
}

#[test]
fn a_cache_whose_callbacks_panic_and_use_it_stays_whole() {
    within_a_minute(|| {
        let setup =
            Setup::of(256).after_write(Duration::from_millis(300)).refresh(Duration::from_millis(100)).bound(300);
        let cache = CACHE.get_or_init(|| Loading::sharded(2, &setup).unwrap().with_listener(|_| strikes()));
        std::thread::scope(|threads| {
            for seed in 1..9 {
                threads.spawn(move || {
                    RANDOM.set(Random::of(seed).0);
                    for _ in 0..10_000 {
                        drop(catch_unwind(AssertUnwindSafe(|| call(cache))));
                    }
                });
            }
        });
        IS_CALM.store(true, SeqCst);
        let numbers = cache.numbers();
        assert_eq!((cache.kept(), numbers.flights), ((numbers.entries as usize, numbers.entries as usize), 0));
        assert_eq!(VALUES.load(SeqCst), numbers.entries);
        assert!(PANICS.load(SeqCst) > 1000);
        drop(cache.clear_at(1000).unwrap());
        assert_eq!((cache.kept(), VALUES.load(SeqCst)), ((0, 0), 0));
    });
}
