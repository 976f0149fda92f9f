//! What a loader, a listener and a value's drop may do. embed/CALLBACKS.md names these tests.
mod common;
#[path = "common/whole.rs"]
mod whole;
use common::within_a_minute;
use rookdresser::{Cache, Cause, Fault, Found, GetError, Landed, Loading, Setup, Stats};
use std::panic::catch_unwind;
use std::sync::atomic::{AtomicU64, Ordering};
use std::sync::{Arc, Barrier, Mutex, OnceLock};
use std::time::Duration;
use whole::{holds_exactly, panics, Down, SETUP};

#[test]
fn a_loader_that_fails_fails_for_all_and_its_error_need_not_be_clone() {
    let cache = Loading::<u64, u64, Down>::open(&SETUP).unwrap();
    let gate = Barrier::new(2);
    std::thread::scope(|s| {
        let joins = s.spawn(|| {
            gate.wait();
            cache.get_at(&1, 0, || Ok((2, 1)))
        });
        let leads = cache.get_at(&1, 0, || {
            gate.wait();
            while cache.stats().joins == 0 {
                std::thread::yield_now();
            }
            Err(Down)
        });
        assert_eq!(leads, Err(GetError::Load(Arc::new(Down))));
        assert_eq!(joins.join().unwrap(), Err(GetError::Load(Arc::new(Down))));
    });
    holds_exactly(&cache);
}

#[test]
fn the_question_mark_passes_a_get_s_error_on() {
    fn ask(cache: &Loading<u64, u64, Down>) -> Result<u64, Box<dyn std::error::Error>> {
        Ok(*cache.get_at(&1, 0, || Err(Down))?)
    }
    let cache = Loading::open(&SETUP).unwrap();
    assert_eq!(ask(&cache).unwrap_err().to_string(), "the load failed: the source is down");
}

#[test]
fn a_loader_that_panics_is_asked_again_by_those_who_joined() {
    let cache = Loading::<u64, u64, Down>::open(&SETUP).unwrap();
    let gate = Barrier::new(2);
    std::thread::scope(|s| {
        let joins = s.spawn(|| {
            gate.wait();
            cache.get_at(&1, 0, || Ok((2, 1)))
        });
        assert!(panics(|| {
            let _ = cache.get_at(&1, 0, || {
                gate.wait();
                while cache.stats().joins == 0 {
                    std::thread::yield_now();
                }
                panic!("of the loader")
            });
        }));
        assert_eq!(joins.join().unwrap(), Ok(Arc::new(2)));
    });
    assert_eq!(cache.stats().failed, 1);
    holds_exactly(&cache);
}

#[test]
fn a_loader_may_use_the_cache_for_other_keys_and_change_its_own() {
    let cache = Loading::<u64, u64, Down>::open(&SETUP).unwrap();
    let got = cache.get_at(&1, 0, || {
        cache.put_at(&1, Arc::new(7), 1, 0).unwrap();
        Ok((*cache.get_at(&2, 0, || Ok((20, 1))).unwrap() + 1, 1))
    });
    assert_eq!(
        (got, cache.look_at(&1, 0), cache.look_at(&2, 0)),
        (Ok(Arc::new(21)), Ok(Some(Arc::new(7))), Ok(Some(Arc::new(20))))
    );
    assert_eq!(cache.stats().loose, 1);
    holds_exactly(&cache);
}

#[test]
fn a_loader_that_asks_for_its_own_key_is_told() {
    within_a_minute(|| {
        let cache = Loading::<u64, u64, GetError<Down>>::open(&SETUP).unwrap();
        let mut inner = Ok(Arc::new(0));
        let got = cache.get_at(&1, 0, || {
            inner = cache.get_at(&1, 0, || Ok((1, 1)));
            Ok((2, 1))
        });
        assert_eq!((inner, got), (Err(GetError::WaitsForItself), Ok(Arc::new(2))));
        holds_exactly(&cache);
    });
}

#[test]
fn loaders_of_two_threads_that_wait_for_each_other_are_told() {
    within_a_minute(|| {
        let cache = Loading::<u64, u64, Down>::open(&SETUP).unwrap();
        let (gate, told) = (Barrier::new(2), AtomicU64::new(0));
        // Each loads its key and then asks for the other's.
        let ask = |own: u64, other: u64| {
            cache.get_at(&own, 0, || {
                gate.wait();
                match cache.get_at(&other, 0, || Ok((other, 1))) {
                    Ok(_) => {}
                    Err(error) => {
                        assert_eq!(error, GetError::WaitsForItself);
                        told.fetch_add(1, Ordering::SeqCst);
                    }
                }
                Ok((own, 1))
            })
        };
        std::thread::scope(|s| {
            let first = s.spawn(|| ask(1, 2));
            assert_eq!(ask(2, 1), Ok(Arc::new(2)));
            assert_eq!(first.join().unwrap(), Ok(Arc::new(1)));
        });
        assert_eq!(told.into_inner(), 1);
        holds_exactly(&cache);
    });
}

#[test]
fn a_weight_out_of_range_stores_nothing_and_is_no_error_of_a_get() {
    let cache = Loading::<u64, u64, Down>::open(&SETUP).unwrap();
    assert_eq!(cache.get_at(&1, 0, || Ok((7, u32::MAX))), Ok(Arc::new(7)));
    assert_eq!(cache.put_at(&1, Arc::new(7), u32::MAX, 0), Err(Fault::TooHeavy));
    assert_eq!((cache.look_at(&1, 0), cache.stats().loose), (Ok(None), 1));
    assert_eq!(cache.stats().refused[Fault::TooHeavy.place()], 1);
    holds_exactly(&cache);
}

#[test]
fn a_refresh_that_fails_returns_the_old_value() {
    let cache = Loading::<u64, u64, Down>::open(&SETUP.refresh(Duration::from_millis(50))).unwrap();
    cache.put_at(&1, Arc::new(7), 1, 0).unwrap();
    assert_eq!(cache.get_at(&1, 60, || Err(Down)), Ok(Arc::new(7)));
    assert_eq!(cache.get_at(&1, 60, || Ok((8, 1))), Ok(Arc::new(8)));
    let Stats { hits, misses, refreshes, loads, failed, replaced, .. } = cache.stats();
    assert_eq!((hits, misses, refreshes, loads, failed, replaced), (2, 0, 2, 1, 1, 1));
}

#[test]
fn an_entry_that_expires_while_its_refresh_fails_is_let_go() {
    let setup = SETUP.after_write(Duration::from_millis(100)).refresh(Duration::from_millis(50));
    let mut alone = Cache::<String, Vec<u8>>::open(&setup).unwrap();
    let key = String::from("a page");
    alone.put(&key, vec![0; 10], 1, 0).unwrap();
    let Found::HitLead(_, id) = alone.seek(&key, 60).unwrap().0 else { panic!("it is due") };
    let (landed, left) = alone.fail(id, &key, 150);
    assert_eq!((landed, left.len(), alone.kept(), alone.numbers().entries), (Landed::Failed(1), 1, (0, 0), 0));

    let cache = Loading::<u64, u64, Down>::open(&setup).unwrap();
    for now in (0..200_000).step_by(200) {
        cache.put_at(&1, Arc::new(7), 1, now).unwrap();
        let got = cache.get_at(&1, now + 60, || {
            cache.look_at(&2, now + 150).unwrap();
            Err(Down)
        });
        assert_eq!(got, Ok(Arc::new(7)));
    }
    assert_eq!((cache.kept(), cache.numbers().entries), ((0, 0), 0));
}

#[test]
fn the_age_of_a_loaded_value_counts_from_the_get() {
    let cache = Loading::<u64, u64, Down>::open(&SETUP.after_write(Duration::from_millis(100))).unwrap();
    assert_eq!(cache.get_at(&1, 1000, || Ok((7, 1))), Ok(Arc::new(7)));
    assert_eq!(cache.look_at(&1, 1099), Ok(Some(Arc::new(7))));
    assert_eq!(cache.look_at(&1, 1100), Ok(None));
    // While the load is made, the clock of the cache moves on: a moment before the latest one counts as the latest.
    let got = cache.get_at(&2, 2000, || {
        cache.look_at(&3, 2090).unwrap();
        Ok((8, 1))
    });
    assert_eq!((got, cache.look_at(&2, 2189)), (Ok(Arc::new(8)), Ok(Some(Arc::new(8)))));
    assert_eq!(cache.look_at(&2, 2190), Ok(None));
}

// A value whose drop uses the cache that it was in.
struct Asks(u64);

static ASKED: OnceLock<Loading<u64, Asks, Down>> = OnceLock::new();

impl Drop for Asks {
    fn drop(&mut self) {
        let cache = ASKED.get().expect("it is open");
        cache.drop_key_at(&(self.0 + 1000), 0).unwrap();
        // Its own key, too: a value that drops whenever it is stored would never end.
        if self.0 < 3 {
            let _ = cache.get_at(&self.0, 0, || Ok((Asks(self.0 + 3), 1)));
        }
    }
}

#[test]
fn a_value_s_drop_may_use_the_cache() {
    within_a_minute(|| {
        let cache = ASKED.get_or_init(|| Loading::open(&Setup { entries: 2, ..SETUP }).unwrap());
        for key in 0..20 {
            assert!(cache.get_at(&key, 0, || Ok((Asks(key), 1))).is_ok());
        }
        drop(cache.clear_at(0).unwrap());
        holds_exactly(cache);
    });
}

// A value that counts how many of its kind there are, and panics as it is dropped if it is told to.
#[derive(Debug)]
struct Counted(Arc<AtomicU64>, bool);

impl Counted {
    fn new(count: &Arc<AtomicU64>, panics: bool) -> Counted {
        count.fetch_add(1, Ordering::SeqCst);
        Counted(count.clone(), panics)
    }
}

impl Drop for Counted {
    fn drop(&mut self) {
        self.0.fetch_sub(1, Ordering::SeqCst);
        if self.1 {
            panic!("of a drop")
        }
    }
}

#[test]
fn a_value_s_drop_that_panics_spoils_nothing() {
    within_a_minute(|| {
        let count = Arc::new(AtomicU64::new(0));
        let cache = Loading::<u64, Counted, Down>::open(&Setup { entries: 2, ..SETUP }).unwrap();
        // With no AssertUnwindSafe: a panic leaves the cache whole.
        let get = |key, weight| {
            catch_unwind(|| drop(cache.get_at(&key, 0, || Ok((Counted::new(&count, true), weight))))).is_err()
        };
        // Two are held, so three of five were evicted.
        assert_eq!((0..5).filter(|&key| get(key, 1)).count(), 3);
        holds_exactly(&cache);
        assert_eq!((cache.numbers().entries, count.load(Ordering::SeqCst)), (2, 2));
        // A heavy one evicts both at once: each is dropped, and the get panics once.
        assert!(get(9, 1000));
        assert_eq!((cache.kept(), count.load(Ordering::SeqCst)), ((1, 1), 1));
        // So does the last one as the cache is dropped.
        assert!(panics(|| drop(cache)));
        assert_eq!(count.load(Ordering::SeqCst), 0);
    });
}

#[test]
fn a_listener_is_told_what_left_in_a_get_and_may_use_the_cache() {
    within_a_minute(|| {
        static CACHE: OnceLock<Loading<u64, u64, Down>> = OnceLock::new();
        static TOLD: Mutex<Vec<(u64, u64)>> = Mutex::new(Vec::new());
        let cache = CACHE.get_or_init(|| {
            let cache = Loading::open(&SETUP.after_write(Duration::from_millis(100))).unwrap();
            cache.with_listener(|left| {
                let again = CACHE.get().unwrap().get_at(&left.key, 200, || Ok((9, 1)));
                TOLD.lock().unwrap().push((*left.key, *again.unwrap()));
            })
        });
        cache.put_at(&1, Arc::new(7), 1, 0).unwrap();
        assert_eq!(cache.get_at(&1, 200, || Ok((8, 1))), Ok(Arc::new(8)));
        // The value that the get loaded was there by the time that the listener was called.
        assert_eq!(*TOLD.lock().unwrap(), [(1, 8)]);
        holds_exactly(cache);
    });
}

#[test]
fn a_loader_or_a_listener_that_blocks_stops_no_other_call() {
    within_a_minute(|| {
        let (begun, end) = (Arc::new(Barrier::new(2)), Arc::new(Barrier::new(2)));
        let (begins, ends) = (begun.clone(), end.clone());
        let cache = Loading::<u64, u64, Down>::open(&SETUP).unwrap().with_listener(move |left| {
            if *left.key == 1 {
                begins.wait();
                ends.wait();
            }
        });
        // What the rest of the test does while one thread stands still within a callback.
        let meanwhile = || {
            begun.wait();
            assert_eq!(cache.get_at(&2, 0, || Ok((20, 1))), Ok(Arc::new(20)));
            cache.put_at(&3, Arc::new(30), 1, 0).unwrap();
            assert_eq!(cache.look_at(&3, 0), Ok(Some(Arc::new(30))));
            end.wait();
        };
        std::thread::scope(|s| {
            let blocked = s.spawn(|| {
                cache.get_at(&1, 0, || {
                    begun.wait();
                    end.wait();
                    Ok((10, 1))
                })
            });
            meanwhile();
            assert_eq!(blocked.join().unwrap(), Ok(Arc::new(10)));
            let blocked = s.spawn(|| cache.drop_key_at(&1, 0).unwrap().len());
            begun.wait();
            assert_eq!((cache.look_at(&1, 0), cache.get_at(&2, 0, || Err(Down))), (Ok(None), Ok(Arc::new(20))));
            end.wait();
            assert_eq!(blocked.join().unwrap(), 1);
        });
        holds_exactly(&cache);
    });
}

#[test]
fn a_listener_that_panics_keeps_nothing_from_being_told() {
    let told = Arc::new(AtomicU64::new(0));
    let counted = told.clone();
    let cache = Loading::<u64, u64, Down>::open(&SETUP).unwrap().with_listener(move |_| {
        counted.fetch_add(1, Ordering::SeqCst);
        panic!("of the listener")
    });
    for key in 0..3 {
        cache.put_at(&key, Arc::new(key), 1, 0).unwrap();
    }
    assert!(panics(|| drop(cache.clear_at(0))));
    assert_eq!((told.load(Ordering::SeqCst), cache.numbers().entries), (3, 0));
    drop(cache);
    assert_eq!(told.load(Ordering::SeqCst), 3);
    // A get whose load makes an entry leave has landed by the time that it panics.
    let cache = Loading::<u64, u64, Down>::open(&Setup { entries: 1, ..SETUP })
        .unwrap()
        .with_listener(|_| panic!("of the listener"));
    cache.put_at(&1, Arc::new(1), 1, 0).unwrap();
    assert!(panics(|| drop(cache.put_at(&1, Arc::new(2), 1, 0))));
    assert_eq!(cache.look_at(&1, 0), Ok(Some(Arc::new(2))));
    holds_exactly(&cache);
    assert!(panics(|| drop(cache)));
}

#[test]
fn dropping_the_cache_tells_the_listener_what_was_there() {
    for shards in [1, 4] {
        let told = Arc::new(Mutex::new(Vec::new()));
        let telling = told.clone();
        let cache = Loading::<u64, u64, Down>::sharded(shards, &SETUP).unwrap().with_listener(move |left| {
            telling.lock().unwrap().push((*left.key, *left.value, left.cause));
            assert_ne!(*left.key, 2, "of the listener");
        });
        for key in 1..4 {
            assert_eq!(cache.get_at(&key, 0, || Ok((key * 10, 1))), Ok(Arc::new(key * 10)));
        }
        assert!(panics(|| drop(cache)));
        let mut told = told.lock().unwrap();
        told.sort_by_key(|told| told.0);
        assert_eq!(*told, [(1, 10, Cause::Explicit), (2, 20, Cause::Explicit), (3, 30, Cause::Explicit)]);
    }
}
