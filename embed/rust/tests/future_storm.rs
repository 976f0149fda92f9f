//! A million calls of tasks on four threads, whose loads wait, fail, panic, nest and are dropped: no answer is stale, and nothing is
//! kept for good.
mod common;
#[path = "common/random.rs"]
mod random;
#[path = "common/tasks.rs"]
mod tasks;
#[path = "common/whole.rs"]
mod whole;
use common::within;
use random::Random;
use rookdresser::{future, Fault, GetError, Setup};
use std::collections::HashMap;
use std::future::{poll_fn, Future};
use std::panic::{catch_unwind, resume_unwind, AssertUnwindSafe};
use std::pin::{pin, Pin};
use std::sync::atomic::{AtomicU64, Ordering::SeqCst};
use std::task::Poll;
use std::time::Duration;
use tasks::{run, yields, Spawned};
use whole::holds_exactly;

const KEYS: u64 = 640;
const TASKS: u64 = 64;
// The key of an error for several keys.
const SEVERAL: u64 = KEYS;
// A million in all, and a tenth of that without optimization.
const CALLS: u64 = if cfg!(debug_assertions) { 1_562 } else { 15_625 };

static LIVE: AtomicU64 = AtomicU64::new(0);

// A value or an error, which is counted.
#[derive(Debug)]
struct Thing {
    key: u64,
    version: u64,
}

impl Thing {
    fn of(key: u64, version: u64) -> Thing {
        LIVE.fetch_add(1, SeqCst);
        Thing { key, version }
    }
}

impl Drop for Thing {
    fn drop(&mut self) {
        LIVE.fetch_sub(1, SeqCst);
    }
}

type Cache = future::Loading<u64, Thing, Thing>;

// The source: the version of each key, and the latest one whose write has been answered. Only one task writes a key.
struct Source {
    written: Vec<AtomicU64>,
    answered: Vec<AtomicU64>,
    moment: AtomicU64,
}

impl Source {
    fn new() -> Source {
        let zeros = || (0..KEYS).map(|_| AtomicU64::new(0)).collect();
        Source { written: zeros(), answered: zeros(), moment: AtomicU64::new(0) }
    }

    fn version(&self, key: u64) -> u64 {
        self.written[key as usize].load(SeqCst)
    }

    fn answered(&self, key: u64) -> u64 {
        self.answered[key as usize].load(SeqCst)
    }

    fn write(&self, key: u64, told: impl FnOnce(u64)) {
        let version = self.written[key as usize].fetch_add(1, SeqCst) + 1;
        told(version);
        self.answered[key as usize].store(version, SeqCst);
    }
}

// The result; nothing if the future panics, or isn't ready after so many polls. It is dropped then.
async fn tried<T>(polls: u64, future: impl Future<Output = T>) -> Option<T> {
    let (mut future, mut left) = (pin!(future), polls);
    poll_fn(|context| match catch_unwind(AssertUnwindSafe(|| future.as_mut().poll(context))) {
        Ok(Poll::Ready(done)) => Poll::Ready(Some(done)),
        Ok(Poll::Pending) if left > 0 => {
            left -= 1;
            Poll::Pending
        }
        _ => Poll::Ready(None),
    })
    .await
}

// What a loader does: it waits, asks for another key, fails, panics, or returns what is written.
async fn load(cache: &Cache, source: &Source, key: u64, what: u64) -> Result<(Thing, u32), Thing> {
    yields(what % 4).await;
    let version = source.version(key);
    match what / 4 % 16 {
        0 => return Err(Thing::of(key, version)),
        1 => resume_unwind(Box::new("of the loader")),
        2 | 3 => drop(get(cache, source, what % KEYS, what / 64, u64::MAX).await),
        4 => yields(10).await,
        _ => {}
    }
    Ok((Thing::of(key, version), (what % 20) as u32))
}

// Asks for a key, and gives up after so many polls. Returns whether it would have waited for itself.
fn get<'a>(cache: &'a Cache, source: &'a Source, key: u64, what: u64, polls: u64) -> Asked<'a> {
    Box::pin(async move {
        let (least, now) = (source.answered(key), source.moment.load(SeqCst));
        match tried(polls, cache.get_at(&key, now, load(cache, source, key, what))).await {
            Some(Ok(value)) => assert!(value.key == key && value.version >= least, "{value:?} is older than {least}"),
            Some(Err(GetError::Load(error))) => {
                assert!(error.key == SEVERAL || error.key == key && error.version >= least)
            }
            Some(Err(GetError::Refused(fault))) => assert_eq!(fault, Fault::TooManyFlights),
            Some(Err(GetError::WaitsForItself)) => return true,
            Some(Err(error)) => unreachable!("{error:?}"),
            None => {}
        }
        false
    })
}

// Asks for several keys, and gives up after so many polls.
async fn get_many(cache: &Cache, source: &Source, keys: [u64; 3], what: u64, polls: u64) {
    let (least, now) = (keys.map(|key| source.answered(key)), source.moment.load(SeqCst));
    let load = |absent: Vec<&u64>| {
        let absent: Vec<_> = absent.into_iter().copied().collect();
        async move {
            let mut loaded = HashMap::new();
            for key in absent {
                // It leaves some out.
                if what % 8 < 7 || key % 8 > 0 {
                    let made = load(cache, source, key, what).await;
                    loaded.insert(key, made.map_err(|_| Thing::of(SEVERAL, 0))?);
                }
            }
            Ok(loaded)
        }
    };
    match tried(polls, cache.get_many_at(&keys, now, load)).await {
        Some(Ok(found)) => {
            let is_fresh =
                |(key, least)| found.get(key).is_none_or(|value| value.key == *key && value.version >= least);
            assert!(keys.iter().zip(least).all(is_fresh));
        }
        Some(Err(GetError::Load(error))) => {
            let is_fresh = |(key, least): (&u64, u64)| error.key == *key && error.version >= least;
            assert!(error.key == SEVERAL || keys.iter().zip(least).any(is_fresh));
        }
        Some(Err(GetError::Refused(fault))) => assert_eq!(fault, Fault::TooManyFlights),
        Some(Err(error)) => unreachable!("nobody waits for a task that isn't within a load: {error:?}"),
        None => {}
    }
}

type Asked<'a> = Pin<Box<dyn Future<Output = bool> + Send + 'a>>;

async fn calls(cache: &Cache, source: &Source, task: u64) {
    let mut random = Random::of(task + 1);
    for _ in 0..CALLS {
        let key = random.below(KEYS).min(random.below(KEYS));
        let now = source.moment.fetch_add(u64::from(random.below(16) == 0), SeqCst);
        // A key that this task alone writes.
        let own = key / TASKS * TASKS + task;
        match random.below(100) {
            0..=3 => source.write(own, |_| drop(cache.drop_key_at(&own, now).unwrap())),
            4..=7 => source.write(own, |version| {
                cache.store_at(&own, Thing::of(own, version), 1, now).unwrap();
            }),
            8 => drop(cache.forget_at(&key, now).unwrap()),
            9 if random.below(50) == 0 => drop(cache.clear_at(now).unwrap()),
            10 => drop(cache.clean_at(now).unwrap()),
            11..=30 => {
                let least = source.answered(key);
                assert!(cache
                    .look_at(&key, now)
                    .unwrap()
                    .is_none_or(|value| value.key == key && value.version >= least));
            }
            41..=44 => {
                let polls = if random.below(2) == 0 { random.below(4) } else { u64::MAX };
                get_many(cache, source, [key, random.below(KEYS), own], random.below(1 << 40), polls).await;
            }
            // Nobody waits for a task that isn't within a load.
            31..=40 => assert!(!get(cache, source, key, random.below(1 << 40), random.below(4)).await),
            _ => assert!(!get(cache, source, key, random.below(1 << 40), u64::MAX).await),
        }
    }
}

#[test]
fn no_answer_of_a_million_calls_is_stale_and_nothing_is_kept_for_good() {
    within(Duration::from_secs(600), || {
        let setup = Setup::of(300)
            .flights(24)
            .bound(2000)
            .after_write(Duration::from_millis(300))
            .refresh(Duration::from_millis(60));
        let cache = Cache::from(rookdresser::Loading::sharded(2, &setup).unwrap());
        let source = Source::new();
        run(4, (0..TASKS).map(|task| Box::pin(calls(&cache, &source, task)) as Spawned).collect());
        let (stats, numbers) = (cache.stats(), cache.numbers());
        println!("{stats:?}, {numbers:?}");
        holds_exactly(&cache);
        assert_eq!(LIVE.load(SeqCst), numbers.entries);
        assert_eq!((stats.hits, stats.misses, stats.failed), (numbers.hits, numbers.misses, numbers.failed));
        let counts = [stats.hits, stats.joins, stats.failed, stats.refreshes, stats.loose, stats.expired, stats.size];
        assert!(counts.iter().all(|&count| count > 100) && stats.refused[Fault::TooManyFlights.place()] > 0);
        drop(cache);
        assert_eq!(LIVE.load(SeqCst), 0);
    });
}
