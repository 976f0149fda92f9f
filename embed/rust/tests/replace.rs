//! Stores that depend on the value that is there.
use rookdresser::{Cause, Fault, Loading, Setup};
use std::cell::Cell;
use std::hash::{Hash, Hasher};
use std::sync::atomic::{AtomicU64, Ordering::SeqCst};
use std::sync::{Arc, Mutex};
use std::time::Duration;

type Cache = Loading<u64, u64, ()>;

#[test]
fn a_value_is_replaced_if_it_is_the_same_one() {
    let cache = Cache::open(&Setup::of(8).after_write(Duration::from_millis(10)).bound(100)).unwrap();
    let (seven, eight) = (Arc::new(7), Arc::new(8));
    assert_eq!(cache.replace_if_at(&1, &seven, eight.clone(), 1, 0), Ok(false));
    cache.store_at(&1, seven.clone(), 1, 0).unwrap();
    // An equal value is another one.
    assert_eq!(cache.replace_if_at(&1, &Arc::new(7), eight.clone(), 1, 0), Ok(false));
    assert_eq!(cache.replace_if_at(&1, &seven, eight.clone(), 2, 5), Ok(true));
    assert_eq!(cache.replace_if_at(&1, &seven, Arc::new(9), 2, 5), Ok(false));
    assert_eq!((cache.look_at(&1, 14), cache.numbers().weight), (Ok(Some(eight.clone())), 2));
    assert_eq!(cache.replace_if_at(&1, &eight, Arc::new(9), 101, 14), Err(Fault::TooHeavy));
    assert_eq!(cache.look_at(&1, 14), Ok(Some(eight.clone())));
    // It has expired at 15.
    assert_eq!(cache.replace_if_at(&1, &eight, Arc::new(9), 1, 15), Ok(false));
    assert_eq!((cache.look_at(&1, 15), cache.kept()), (Ok(None), (0, 0)));
    assert_eq!((Arc::strong_count(&seven), Arc::strong_count(&eight)), (1, 1));
}

#[test]
fn the_listener_is_told_what_was_replaced_and_a_load_stores_nothing_over_it() {
    let told = Arc::new(Mutex::new(vec![]));
    let tells = told.clone();
    let cache = Cache::open(&Setup::of(8).refresh(Duration::from_millis(10))).unwrap();
    let cache = cache.with_listener(move |left| tells.lock().unwrap().push((*left.value, left.cause)));
    let seven = Arc::new(7);
    cache.store_at(&1, seven.clone(), 1, 0).unwrap();
    let got = cache.get_at(&1, 10, || {
        assert_eq!(cache.replace_if_at(&1, &seven, 8, 1, 10), Ok(true));
        Ok((9, 1))
    });
    assert_eq!((got, cache.look_at(&1, 10)), (Ok(Arc::new(9)), Ok(Some(Arc::new(8)))));
    assert_eq!(*told.lock().unwrap(), [(7, Cause::Replaced)]);
}

thread_local! {
    // The value that a call of this thread has replaced.
    static REPLACED: Cell<u64> = const { Cell::new(0) };
}

#[test]
fn the_value_that_leaves_is_the_one_that_was_to_be_replaced_though_others_put() {
    let cache = Cache::open(&Setup::of(8)).unwrap().with_listener(|left| REPLACED.set(*left.value));
    cache.store(&1, 0, 1).unwrap();
    let replaced = AtomicU64::new(0);
    std::thread::scope(|threads| {
        for thread in 1..=4 {
            let (cache, replaced) = (&cache, &replaced);
            threads.spawn(move || {
                for call in 0..20_000 {
                    let value = thread << 32 | call;
                    if thread <= 2 {
                        cache.store(&1, value, 1).unwrap();
                        continue;
                    }
                    let old = cache.look(&1).unwrap().expect("nobody drops it");
                    if cache.replace_if(&1, &old, value, 1 + (call % 8 / 7) as u32).unwrap() {
                        assert_eq!(REPLACED.get(), *old);
                        replaced.fetch_add(1, SeqCst);
                    }
                }
            });
        }
    });
    let replaced = replaced.into_inner();
    assert!(replaced > 100, "{replaced}");
    assert_eq!((cache.stats().replaced, cache.kept()), (40_000 + replaced, (1, 1)));
}

#[test]
fn no_change_of_four_threads_is_lost() {
    let cache = Cache::open(&Setup::of(8)).unwrap();
    cache.store(&1, 0, 1).unwrap();
    std::thread::scope(|threads| {
        for _ in 0..4 {
            threads.spawn(|| {
                for _ in 0..5000 {
                    loop {
                        let old = cache.look(&1).unwrap().expect("nobody drops it");
                        if cache.replace_if(&1, &old, Arc::new(*old + 1), 1).unwrap() {
                            break;
                        }
                    }
                }
            });
        }
    });
    assert_eq!(cache.look(&1), Ok(Some(Arc::new(20_000))));
}

#[test]
fn a_value_is_inserted_if_there_is_none() {
    let told = Arc::new(Mutex::new(vec![]));
    let tells = told.clone();
    let cache = Cache::open(&Setup::of(8).after_write(Duration::from_millis(10)).bound(100)).unwrap();
    let cache = cache.with_listener(move |left| tells.lock().unwrap().push((*left.key, *left.value, left.cause)));
    let (seven, eight) = (Arc::new(7), Arc::new(8));
    assert_eq!(cache.get_or_insert_at(&1, seven.clone(), 2, 0), Ok(seven.clone()));
    assert_eq!(cache.get_or_insert_at(&1, eight.clone(), 3, 9), Ok(seven.clone()));
    assert_eq!((cache.numbers().weight, Arc::strong_count(&seven), Arc::strong_count(&eight)), (2, 2, 1));
    // It has expired at 10, and leaves.
    assert_eq!(cache.get_or_insert_at(&1, eight.clone(), 3, 10), Ok(eight.clone()));
    assert_eq!((cache.numbers().weight, Arc::strong_count(&seven)), (3, 1));
    assert_eq!(*told.lock().unwrap(), [(1, 7, Cause::Expired)]);
    // What is there is returned even if the other value is too heavy.
    assert_eq!(cache.get_or_insert_at(&1, seven.clone(), 101, 10), Ok(eight.clone()));
    assert_eq!(cache.get_or_insert_at(&2, seven.clone(), 101, 10), Err(Fault::TooHeavy));
    assert_eq!((Arc::strong_count(&seven), cache.look_at(&2, 10), cache.kept()), (1, Ok(None), (1, 1)));
    let (stats, numbers) = (cache.stats(), cache.numbers());
    assert_eq!((stats.hits, stats.misses, stats.refused[Fault::TooHeavy.place()]), (2, 4, 1));
    assert_eq!((numbers.hits, numbers.misses), (2, 4));
}

// A key that isn't of the standard library's, so that it is compared and cloned with no lock held. All have one hash.
#[derive(Clone, Debug, PartialEq, Eq)]
struct Alike(u64);

impl Hash for Alike {
    fn hash<H: Hasher>(&self, state: &mut H) {
        state.write_u64(1);
    }
}

#[test]
fn keys_of_one_hash_have_their_own_values_as_they_expire_and_are_inserted() {
    let cache = Loading::<Alike, u64, ()>::open(&Setup::of(8).after_write(Duration::from_millis(10))).unwrap();
    for now in [0, 5, 10, 15, 20] {
        let round = now / 10;
        for key in 0..4 {
            let value = cache.get_or_insert_at(&Alike(key), Arc::new(10 * round + key), 1, now);
            assert_eq!(value, Ok(Arc::new(10 * round + key)));
        }
        // The first of them expires as the others are there, and has the same number or another one.
        assert_eq!((cache.kept(), cache.numbers().entries), ((4, 4), 4));
    }
    assert_eq!((cache.stats().expired, cache.stats().hits), (8, 8));
}

#[test]
fn a_load_stores_nothing_over_what_was_inserted_and_waits_for_nothing() {
    let cache = Cache::open(&Setup::of(8)).unwrap();
    let got = cache.get_with(&1, || {
        assert_eq!(cache.get_or_insert(&1, 7, 1), Ok(Arc::new(7)));
        9
    });
    assert_eq!((got, cache.look(&1), cache.stats().loose), (Ok(Arc::new(9)), Ok(Some(Arc::new(7))), 1));
}

#[test]
fn what_is_there_is_found_without_the_lock() {
    let cache = Cache::sharded(1, &Setup::of(8)).unwrap();
    cache.store(&1, 7, 1).unwrap();
    // All but the last of these calls take no lock.
    (0..1000).for_each(|_| assert_eq!(cache.get_or_insert(&1, 8, 1), Ok(Arc::new(7))));
    assert_eq!(cache.get_or_insert(&2, 8, 1), Ok(Arc::new(8)));
    assert_eq!((cache.stats().hits, cache.stats().misses, cache.kept()), (1000, 1, (2, 2)));
}

#[test]
fn of_four_threads_at_once_one_inserts_and_all_get_its_value() {
    let cache = Cache::open(&Setup::of(2000)).unwrap();
    let got: Vec<_> = std::thread::scope(|threads| {
        let insert = |thread| {
            let cache = &cache;
            move || (0..1000).map(|key| *cache.get_or_insert(&key, Arc::new(thread), 1).unwrap()).collect::<Vec<_>>()
        };
        let threads: Vec<_> = (0..4).map(|thread| threads.spawn(insert(thread))).collect();
        threads.into_iter().map(|thread| thread.join().unwrap()).collect()
    });
    assert!(got.iter().all(|one| *one == got[0]));
    assert_eq!((cache.stats().misses, cache.stats().replaced), (1000, 0));
}
