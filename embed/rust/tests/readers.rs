//! Threads that hit without the lock while others store and remove: no value is returned that had been replaced or dropped before, none is
//! dropped twice or kept too long, and all are counted. This is a program of its own, since the thread sanitizer sees races in the threads of
//! a test and of a scope, whose ends it can't see.
#[path = "common/random.rs"]
mod random;
use random::Random;
use rookdresser::{Loading, Setup};
use std::hash::{Hash, Hasher};
use std::sync::atomic::{AtomicU64, Ordering::SeqCst};
use std::sync::Arc;
use std::time::Duration;

const KEYS: u64 = 96;
const THREADS: u64 = 6;
const CALLS: u64 = 60_000;

// A key of the caller's, of which two have one hash.
#[derive(Clone, PartialEq, Eq)]
struct Coarse(u64);

impl Hash for Coarse {
    fn hash<H: Hasher>(&self, state: &mut H) {
        state.write_u64(self.0 / 2);
    }
}

// A value that knows whether it is whole, and is counted while it is there.
struct Whole {
    version: u64,
    check: u64,
    text: String,
    alive: Arc<AtomicU64>,
}

impl Whole {
    fn of(version: u64, alive: &Arc<AtomicU64>) -> Whole {
        alive.fetch_add(1, SeqCst);
        Whole { version, check: !version, text: format!("version {version}"), alive: alive.clone() }
    }

    fn checked(&self) -> u64 {
        assert!(self.check == !self.version && self.text.len() > 8, "it is whole");
        self.version
    }
}

impl Drop for Whole {
    fn drop(&mut self) {
        self.checked();
        self.check = 0;
        self.alive.fetch_sub(1, SeqCst);
    }
}

// Each thread alone writes some of the keys. Versions only grow, so what was stored last is known once the call has ended.
struct Storm<K> {
    cache: Loading<K, Whole, ()>,
    key: fn(u64) -> K,
    least: Vec<AtomicU64>,
    next: AtomicU64,
    looks: AtomicU64,
    alive: Arc<AtomicU64>,
}

impl<K: Hash + Eq + Clone> Storm<K> {
    fn new_value(&self) -> Whole {
        Whole::of(self.next.fetch_add(1, SeqCst), &self.alive)
    }

    fn call(&self, thread: u64, random: &mut Random) {
        let of = random.below(KEYS);
        let (cache, least, key, is_own) =
            (&self.cache, &self.least[of as usize], (self.key)(of), of % THREADS == thread);
        let before = least.load(SeqCst);
        match random.below(40) {
            0..=2 if is_own => {
                let value = self.new_value();
                let version = value.version;
                cache.store(&key, value, 1).unwrap();
                least.store(version, SeqCst);
            }
            3 if is_own => {
                let left = cache.drop_key(&key).unwrap();
                left.iter().for_each(|left| assert!(left.value.checked() >= before));
                least.store(self.next.fetch_add(1, SeqCst), SeqCst);
                assert!(cache.look(&key).unwrap().is_none(), "nobody else writes the key");
                self.looks.fetch_add(1, SeqCst);
            }
            4 if is_own => {
                let got = cache.get(&key, || Ok((self.new_value(), 1))).unwrap();
                assert!(got.checked() >= before);
                least.store(got.version, SeqCst);
                self.looks.fetch_add(1, SeqCst);
            }
            5 if random.below(400) == 0 => drop(cache.clear().unwrap()),
            _ => {
                self.looks.fetch_add(1, SeqCst);
                let found = cache.look(&key).unwrap();
                assert!(found.is_none_or(|value| value.checked() >= before), "it had left before");
            }
        }
    }
}

fn storm<K>(name: &str, key: fn(u64) -> K, shards: usize, setup: &Setup, counts_each_once: bool)
where
    K: Hash + Eq + Clone + Send + Sync + 'static,
{
    let cache = Loading::sharded(shards, setup).unwrap();
    let least = (0..KEYS).map(|_| AtomicU64::new(0)).collect();
    let (next, looks, alive) = (AtomicU64::new(1), AtomicU64::new(0), Arc::new(AtomicU64::new(0)));
    let storm = Arc::new(Storm { cache, key, least, next, looks, alive: alive.clone() });
    let thread = |thread| {
        let storm = storm.clone();
        std::thread::spawn(move || {
            let mut random = Random::of(thread + 1);
            (0..CALLS).for_each(|_| storm.call(thread, &mut random));
        })
    };
    let running: Vec<_> = (0..THREADS).map(thread).collect();
    running.into_iter().for_each(|thread| thread.join().unwrap());
    let Storm { cache, looks, .. } = Arc::into_inner(storm).expect("all threads have ended");
    let (numbers, stats, looks) = (cache.numbers(), cache.stats(), looks.into_inner());
    let counted = stats.hits + stats.misses;
    // A call for a key that shares its hash may be counted for the other too.
    assert!(counted == looks || !counts_each_once && counted > looks, "{counted} of {looks}");
    assert_eq!((stats.hits, stats.misses, counted), (numbers.hits, numbers.misses, numbers.lookups));
    assert_eq!(cache.kept(), (numbers.entries as usize, numbers.entries as usize));
    assert_eq!(alive.load(SeqCst), numbers.entries, "each value that left was dropped");
    drop(cache);
    assert_eq!(alive.load(SeqCst), 0);
    println!("test {name} ... ok");
}

fn main() {
    storm("numbers in one shard", |of| of, 1, &Setup::of(64), true);
    storm("numbers in four shards", |of| of, 4, &Setup::of(24), true);
    storm("texts", |of| format!("key {of}"), 2, &Setup::of(40), true);
    storm("keys that share a hash", Coarse, 2, &Setup::of(40), false);
    storm("entries that expire", |of| of, 2, &Setup::of(64).after_write(Duration::from_millis(3)), true);
}
