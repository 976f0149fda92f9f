//! main CACHE KEYS ROUNDS THREADS [WORK]: hits, puts and read-through of the keys in a file, or the one of them that is named: a line
//! for each round, with the nanoseconds an operation, all threads together, and the misses of the read-through. Each
//! thread goes through all keys; in the work `stream`, a read-through too, each takes the next one. The work `get` is a read-through of
//! keys that are held, and in `new` one call in 32 puts a key that was never there.
use rookdresser::{future, Cache, Folded, Found, Loading, Reads, Setup, Token, Tokens};
use std::cell::RefCell;
use std::future::Future;
use std::hash::BuildHasher;
use std::pin::pin;
use std::sync::atomic::{AtomicUsize, Ordering::Relaxed};
use std::sync::{Arc, Mutex};
use std::task::{Context, Poll, Wake, Waker};
use std::time::Instant;

const HELD: u64 = 2048;
const SETUP: Setup = Setup { window: Some(41), flights: 64, ..Setup::of(4096) };
const FOLLOWING: Setup = Setup { window: None, ..SETUP };
// A shard of eight has an eighth of all.
const EIGHTH: Setup = Setup { entries: 512, window: Some(5), ..SETUP };

/// What the caches have in common. A value is its key.
trait Work {
    fn look(&self, key: u64, now: u64) -> bool;
    fn put(&self, key: u64, now: u64);
    /// Answers whether the key was there, and stores it where not.
    fn read_through(&self, key: u64, now: u64) -> bool;
}

fn look(cache: &mut Tokens, key: u64, now: u64) -> bool {
    matches!(cache.look(key, now), Ok(Found::Hit(_)))
}

fn put(cache: &mut Tokens, key: u64, now: u64) {
    cache.put(key, Token { token: key, weight: 1 }, now).expect("memory is there");
}

fn read_through(cache: &mut Tokens, key: u64, now: u64) -> bool {
    match cache.seek(key, now).expect("loads land at once") {
        Found::Lead(id) => {
            cache.land_keep(id, key, Token { token: key, weight: 1 }, now).expect("memory is there");
            false
        }
        _ => true,
    }
}

// One cache of one thread: nothing is locked.
struct Alone(RefCell<Tokens>);

// SAFETY: it is used by one thread alone, which `main` sees to.
unsafe impl Sync for Alone {}

impl Work for Alone {
    fn look(&self, key: u64, now: u64) -> bool {
        look(&mut self.0.borrow_mut(), key, now)
    }
    fn put(&self, key: u64, now: u64) {
        put(&mut self.0.borrow_mut(), key, now)
    }
    fn read_through(&self, key: u64, now: u64) -> bool {
        read_through(&mut self.0.borrow_mut(), key, now)
    }
}

// The cache of one owner.
struct Owned(RefCell<Cache<u64, u64>>);

// SAFETY: as of `Alone`.
unsafe impl Sync for Owned {}

impl Work for Owned {
    fn look(&self, key: u64, now: u64) -> bool {
        self.0.borrow_mut().look(&key, now).expect("memory is there").0.is_some()
    }
    fn put(&self, key: u64, now: u64) {
        self.0.borrow_mut().put(&key, key, 1, now).expect("memory is there");
    }
    fn read_through(&self, key: u64, now: u64) -> bool {
        let mut cache = self.0.borrow_mut();
        match cache.seek(&key, now).expect("loads land at once").0 {
            Found::Lead(id) => {
                cache.land(id, &key, key, 1, now);
                false
            }
            _ => true,
        }
    }
}

// Several caches, each in a Mutex; the highest bits of a multiplication choose one.
struct Locked(Vec<Mutex<Tokens>>);

impl Locked {
    fn of(&self, key: u64) -> std::sync::MutexGuard<'_, Tokens> {
        let shard = (u128::from(key.wrapping_mul(0x9E37_79B9_7F4A_7C15)) * self.0.len() as u128) >> 64;
        self.0[shard as usize].lock().expect("no call panics")
    }
}

impl Work for Locked {
    fn look(&self, key: u64, now: u64) -> bool {
        look(&mut self.of(key), key, now)
    }
    fn put(&self, key: u64, now: u64) {
        put(&mut self.of(key), key, now)
    }
    fn read_through(&self, key: u64, now: u64) -> bool {
        read_through(&mut self.of(key), key, now)
    }
}

impl<S: BuildHasher> Work for Loading<u64, u64, (), S> {
    fn look(&self, key: u64, _: u64) -> bool {
        Loading::look(self, &key).expect("memory is there").is_some()
    }
    fn put(&self, key: u64, _: u64) {
        self.store(&key, key, 1).expect("memory is there");
    }
    fn read_through(&self, key: u64, _: u64) -> bool {
        let mut there = true;
        let load = || {
            there = false;
            Ok((key, 1))
        };
        self.get(&key, load).expect("loads land at once");
        there
    }
}

// The same, with copies of the values in place of shares.
struct Copied<S>(Loading<u64, u64, (), S>);

impl<S: BuildHasher> Work for Copied<S> {
    fn look(&self, key: u64, _: u64) -> bool {
        self.0.look_copied(&key).expect("memory is there").is_some()
    }
    fn put(&self, key: u64, now: u64) {
        Work::put(&self.0, key, now);
    }
    fn read_through(&self, key: u64, _: u64) -> bool {
        let mut there = true;
        let load = || {
            there = false;
            Ok((key, 1))
        };
        self.0.get_copied(&key, load).expect("loads land at once");
        there
    }
}

// The cache of tasks. A load is ready at once, so that each future is ready when it is polled first. Its error is of a type of its own,
// so that the compiler inlines the calls of the others as if this one weren't there.
struct Tasks {
    cache: future::Loading<u64, u64, u64>,
    waker: Waker,
}

struct Nobody;

impl Wake for Nobody {
    fn wake(self: Arc<Self>) {}
}

impl Work for Tasks {
    fn look(&self, key: u64, _: u64) -> bool {
        self.cache.look(&key).expect("memory is there").is_some()
    }
    fn put(&self, key: u64, _: u64) {
        self.cache.store(&key, key, 1).expect("memory is there");
    }
    fn read_through(&self, key: u64, _: u64) -> bool {
        let mut there = true;
        let load = async {
            there = false;
            Ok((key, 1))
        };
        let Poll::Ready(got) = pin!(self.cache.get(&key, load)).poll(&mut Context::from_waker(&self.waker))
        else {
            unreachable!("loads land at once")
        };
        got.expect("loads land at once");
        there
    }
}

#[cfg(feature = "lru")]
impl Work for Mutex<lru::LruCache<u64, u64>> {
    fn look(&self, key: u64, _: u64) -> bool {
        self.lock().expect("no call panics").get(&key).is_some()
    }
    fn put(&self, key: u64, _: u64) {
        self.lock().expect("no call panics").put(key, key);
    }
    fn read_through(&self, key: u64, _: u64) -> bool {
        let mut cache = self.lock().expect("no call panics");
        let there = cache.get(&key).is_some();
        if !there {
            cache.put(key, key);
        }
        there
    }
}

// SHARDSxENTRIES, of which each shard has so many; or ENTRIES, divided by the cores.
fn sized(size: &str, setup: impl Fn(u32) -> Setup) -> Loading<u64, u64, ()> {
    let opened = match size.split_once('x') {
        Some((shards, entries)) => {
            Loading::sharded(shards.parse().expect("a number"), &setup(entries.parse().expect("a number")))
        }
        None => Loading::open(&setup(size.parse().expect("a number"))),
    };
    opened.expect("the setup is within its ranges")
}

fn made(cache: &str) -> Box<dyn Work + Sync> {
    let open = |setup| Tokens::open(setup).expect("the setup is within its ranges");
    let owned = |setup| Box::new(Owned(RefCell::new(Cache::open(&setup).expect("the setup is within its ranges"))));
    let one_lock = |setup| Loading::<u64, u64, ()>::sharded(1, &setup).expect("the setup is within its ranges");
    match cache {
        "alone" => Box::new(Alone(RefCell::new(open(&SETUP)))),
        "mutex" => Box::new(Locked(vec![Mutex::new(open(&SETUP))])),
        "sharded" => Box::new(Locked((0..8).map(|_| Mutex::new(open(&EIGHTH))).collect())),
        "cache" => owned(SETUP),
        "follows-cache" => owned(FOLLOWING),
        "loading" => Box::new(one_lock(SETUP)),
        "follows-loading" => Box::new(one_lock(FOLLOWING)),
        "tasks" => {
            let cache = Loading::sharded(1, &SETUP).expect("the setup is within its ranges").into();
            Box::new(Tasks { cache, waker: Arc::new(Nobody).into() })
        }
        "exact" => Box::new(one_lock(SETUP).with_reads(Reads::Exact)),
        "follows-exact" => Box::new(one_lock(FOLLOWING).with_reads(Reads::Exact)),
        "loading-folded" => Box::new(
            Loading::<u64, u64, (), _>::sharded_with_hasher(1, &SETUP, Folded::new())
                .expect("the setup is within its ranges"),
        ),
        "loading-sharded" => {
            Box::new(Loading::<u64, u64, ()>::sharded(8, &EIGHTH).expect("the setup is within its ranges"))
        }
        "exact-sharded" => {
            let cache = Loading::<u64, u64, ()>::sharded(8, &EIGHTH).expect("the setup is within its ranges");
            Box::new(cache.with_reads(Reads::Exact))
        }
        #[cfg(feature = "lru")]
        "lru" => Box::new(Mutex::new(lru::LruCache::<u64, u64>::new(4096))),
        // A kind of cache, and its size.
        _ => {
            let (kind, size) = cache.split_once('-').expect("a cache");
            let entries = || size.parse().expect("a number");
            match kind {
                "owned" => owned(Setup::of(entries())),
                "fixed" => owned(Setup { adaptive: Some(false), ..Setup::of(entries()) }),
                "window" => owned(Setup { window: Some(entries()), ..Setup::of(entries()) }),
                "exact" => Box::new(sized(size, Setup::of).with_reads(Reads::Exact)),
                "loading" => Box::new(sized(size, Setup::of)),
                "copied" => Box::new(Copied(sized(size, Setup::of))),
                "folded" => Box::new(Copied(
                    Loading::with_hasher(&Setup::of(entries()), Folded::new()).expect("the setup is within its ranges"),
                )),
                _ => panic!("there is no cache {cache}"),
            }
        }
    }
}

// The nanoseconds an operation, all threads together, and how many missed. Each thread begins at a place of its own, or the threads
// take the keys of one stream.
fn timed(
    cache: &(dyn Work + Sync),
    keys: &[u64],
    threads: usize,
    is_one_stream: bool,
    work: fn(&dyn Work, u64, u64) -> bool,
) -> (f64, u64) {
    let begun = Instant::now();
    let next = AtomicUsize::new(0);
    let part = |t: usize| {
        if is_one_stream {
            let taken = std::iter::from_fn(|| keys.get(next.fetch_add(1, Relaxed)));
            return taken.filter(|&&key| !work(cache, key, 0)).count() as u64;
        }
        let (before, after) = keys.split_at(t * keys.len() / threads);
        let stream = after.iter().chain(before).enumerate();
        stream.filter(|&(i, &key)| !work(cache, key, i as u64)).count() as u64
    };
    let missed = match threads {
        1 => part(0),
        _ => std::thread::scope(|scope| {
            let running: Vec<_> = (0..threads).map(|t| scope.spawn(move || part(t))).collect();
            running.into_iter().map(|thread| thread.join().expect("no thread panics")).sum()
        }),
    };
    let made = keys.len() * if is_one_stream { 1 } else { threads };
    (begun.elapsed().as_nanos() as f64 / made as f64, missed)
}

fn main() {
    let given: Vec<String> = std::env::args().collect();
    let (rounds, threads): (u32, usize) = (given[3].parse().expect("a number"), given[4].parse().expect("a number"));
    let has_one_owner = ["alone", "cache", "owned", "fixed", "window"].iter().any(|kind| given[1].contains(kind));
    assert!(!has_one_owner || threads == 1);
    let bytes = std::fs::read(&given[2]).expect("the file of keys");
    let keys: Vec<u64> = bytes.chunks_exact(8).map(|b| u64::from_le_bytes(b.try_into().expect("8 bytes"))).collect();
    type Call = fn(&dyn Work, u64, u64) -> bool;
    let works: [(&str, Call); 7] = [
        ("hit", |cache, key, now| cache.look(key % HELD, now)),
        ("put", |cache, key, now| {
            cache.put(key % HELD, now);
            true
        }),
        ("mixed", |cache, key, now| {
            let is_put = now % 32 == 31;
            if is_put {
                cache.put(key % HELD, now);
            }
            is_put || cache.look(key % HELD, now)
        }),
        ("new", |cache, key, now| {
            let is_put = now % 32 == 31;
            if is_put {
                cache.put(1 << 63 | key << 32 | now, now);
            }
            is_put || cache.look(key % HELD, now)
        }),
        ("read-through", |cache, key, now| cache.read_through(key, now)),
        ("stream", |cache, key, now| cache.read_through(key, now)),
        ("get", |cache, key, now| cache.read_through(key % HELD, now)),
    ];
    let is_asked = |name| given.get(5).map_or(!["new", "stream", "get"].contains(&name), |only| only == name);
    for (name, work) in works.into_iter().filter(|work| is_asked(work.0)) {
        for _ in 0..rounds {
            let cache = made(&given[1]);
            let is_held = ["hit", "get", "put", "mixed"].contains(&name);
            if is_held || name == "new" {
                (0..HELD).for_each(|key| cache.put(key, 0));
            }
            let (each, missed) = timed(&*cache, &keys, threads, name == "stream", work);
            assert!(!is_held || missed == 0, "all of them are held");
            println!("{name} {threads} {each:.2} {missed}");
        }
    }
}
