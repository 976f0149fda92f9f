//! Calls for several keys at once.
mod common;
#[path = "common/whole.rs"]
mod whole;
use common::within_a_minute;
use rookdresser::{Cause, Fault, GetError, Loading, Setup};
use std::collections::HashMap;
use std::sync::{Arc, Mutex, OnceLock};
use std::time::Duration;
use whole::{holds_exactly, panics, Down, SETUP};

type Cache = Loading<u64, u64, Down>;

// What a loader returns of these keys: of each a hundred times the key, which weighs 1.
fn hundreds(keys: &[&u64]) -> HashMap<u64, (u64, u32)> {
    keys.iter().map(|&&key| (key, (100 * key, 1))).collect()
}

// What a call has found, in the order of the keys.
fn sorted(found: HashMap<&u64, Arc<u64>>) -> Vec<(u64, u64)> {
    let mut found: Vec<_> = found.into_iter().map(|(key, value)| (*key, *value)).collect();
    found.sort_unstable();
    found
}

fn wait_for_joins(cache: &Cache, joins: u64) {
    while cache.stats().joins < joins {
        std::thread::yield_now();
    }
}

#[test]
fn one_call_of_the_loader_loads_what_is_not_there() {
    let cache = Cache::open(&SETUP).unwrap();
    cache.store(&1, 7, 1).unwrap();
    let mut asked = vec![];
    let found = cache.get_many(&[2, 1, 3, 2], |absent| {
        asked.extend(absent.iter().map(|key| **key));
        // Nobody asked for 9.
        Ok([(2, (20, 5)), (3, (30, 6)), (9, (90, 7))].into())
    });
    assert_eq!((sorted(found.unwrap()), asked), (vec![(1, 7), (2, 20), (3, 30)], vec![2, 3]));
    let stats = cache.stats();
    // The second 2 joins the load of the first.
    assert_eq!((stats.hits, stats.misses, stats.joins, stats.loads, stats.failed), (1, 3, 1, 2, 0));
    assert_eq!((cache.numbers().weight, cache.look(&3), cache.look(&9)), (12, Ok(Some(Arc::new(30))), Ok(None)));
    let held = cache.get_many(&[1, 2, 3], |_| unreachable!("they are there"));
    assert_eq!(sorted(held.unwrap()), [(1, 7), (2, 20), (3, 30)]);
    assert_eq!(cache.get_many::<u64>(&[], |_| unreachable!("there is no key")), Ok([].into()));
    holds_exactly(&cache);
}

#[test]
fn who_asks_meanwhile_shares_the_loads() {
    within_a_minute(|| {
        let cache = Cache::open(&SETUP).unwrap();
        std::thread::scope(|s| {
            let found = cache.get_many(&[1, 2, 3], |absent| {
                s.spawn(|| assert_eq!(cache.get_with(&2, || unreachable!("it is loaded")), Ok(Arc::new(200))));
                s.spawn(|| {
                    let found = cache.get_many(&[3, 4], |absent| Ok(hundreds(absent)));
                    assert_eq!(sorted(found.unwrap()), [(3, 300), (4, 400)]);
                });
                wait_for_joins(&cache, 2);
                Ok(hundreds(absent))
            });
            assert_eq!(sorted(found.unwrap()), [(1, 100), (2, 200), (3, 300)]);
        });
        assert_eq!((cache.stats().loads, cache.stats().joins), (4, 2));
        holds_exactly(&cache);
    });
}

#[test]
fn a_key_that_the_loader_leaves_out_is_not_there_and_others_load_it() {
    within_a_minute(|| {
        let cache = Cache::open(&SETUP.refresh(Duration::from_millis(10))).unwrap();
        cache.store_at(&3, 7, 1, 0).unwrap();
        std::thread::scope(|s| {
            let found = cache.get_many_at(&[1, 2, 3], 10, |absent| {
                assert_eq!(absent, [&1, &2, &3]);
                s.spawn(|| assert_eq!(cache.get_at(&2, 10, || Ok((5, 1))), Ok(Arc::new(5))));
                wait_for_joins(&cache, 1);
                Ok([(1, (100, 1))].into())
            });
            // The entry that was due has its old value.
            assert_eq!(sorted(found.unwrap()), [(1, 100), (3, 7)]);
        });
        assert_eq!((cache.stats().loads, cache.stats().failed), (2, 2));
        holds_exactly(&cache);
    });
}

#[test]
fn a_loader_that_fails_fails_for_all_but_old_values_stay() {
    within_a_minute(|| {
        let cache = Cache::open(&SETUP.refresh(Duration::from_millis(10))).unwrap();
        cache.store_at(&1, 7, 1, 0).unwrap();
        cache.store_at(&2, 8, 1, 0).unwrap();
        let due = cache.get_many_at(&[1, 2], 10, |absent| {
            assert_eq!(absent.len(), 2);
            Err(Down)
        });
        assert_eq!(sorted(due.unwrap()), [(1, 7), (2, 8)]);
        std::thread::scope(|s| {
            let found = cache.get_many_at(&[1, 3], 10, |absent| {
                assert_eq!(absent.len(), 2);
                s.spawn(|| {
                    let shared = cache.get_at(&3, 10, || unreachable!("it is loaded"));
                    assert_eq!(shared, Err(GetError::Load(Arc::new(Down))));
                });
                wait_for_joins(&cache, 1);
                Err(Down)
            });
            assert_eq!(found, Err(GetError::Load(Arc::new(Down))));
        });
        assert_eq!(
            (cache.stats().failed, cache.stats().refreshes, cache.look_at(&1, 10)),
            (4, 3, Ok(Some(Arc::new(7))))
        );
        holds_exactly(&cache);
    });
}

#[test]
fn more_keys_than_flights_take_several_calls_of_the_loader() {
    let cache = Cache::open(&Setup { bound: 1000, flights: 8, ..Setup::of(64) }).unwrap();
    let (keys, mut calls): (Vec<u64>, _) = ((0..20).collect(), vec![]);
    let found = cache.get_many(&keys, |absent| {
        calls.push(absent.len());
        Ok(hundreds(absent))
    });
    assert_eq!(
        (sorted(found.unwrap()), calls),
        ((0..20).map(|key| (key, 100 * key)).collect::<Vec<_>>(), vec![8, 8, 4])
    );
    // With all of them open by another call, none is left for this one.
    let got = cache.get_many(&[20, 21, 22, 23, 24, 25, 26, 27], |absent| {
        assert_eq!(
            cache.get_many(&[1, 30], |_| unreachable!("no load is begun")),
            Err(GetError::Refused(Fault::TooManyFlights))
        );
        Ok(hundreds(absent))
    });
    assert_eq!(got.unwrap().len(), 8);
    holds_exactly(&cache);
}

#[test]
fn a_call_that_is_refused_ends_the_loads_that_it_began() {
    within_a_minute(|| {
        let cache = Cache::open(&Setup { bound: 1000, flights: 1, ..Setup::of(64) }).unwrap();
        let heavy = cache.get_many(&[1], |_| Ok([(1, (7, 1001))].into()));
        // It is returned, and not stored.
        assert_eq!((sorted(heavy.unwrap()), cache.look(&1), cache.stats().loose), (vec![(1, 7)], Ok(None), 1));
        let got = cache.get_with(&5, || {
            let refused = cache.get_many(&[1, 2], |_| unreachable!("no load is begun"));
            assert_eq!(refused, Err(GetError::Refused(Fault::TooManyFlights)));
            7
        });
        assert_eq!(got, Ok(Arc::new(7)));
        assert_eq!(cache.stats().refused[Fault::TooManyFlights.place()], 1);
        holds_exactly(&cache);
    });
}

#[test]
fn a_loader_that_panics_ends_its_loads_and_others_ask_again() {
    within_a_minute(|| {
        let cache = Cache::open(&SETUP).unwrap();
        std::thread::scope(|s| {
            assert!(panics(|| {
                let _ = cache.get_many(&[1, 2, 3], |_| {
                    s.spawn(|| {
                        let found = cache.get_many(&[2, 1], |absent| Ok(hundreds(absent)));
                        assert_eq!(sorted(found.unwrap()), [(1, 100), (2, 200)]);
                    });
                    wait_for_joins(&cache, 2);
                    panic!("of the loader")
                });
            }));
        });
        assert_eq!((cache.stats().failed, cache.stats().loads), (3, 2));
        // This thread makes no load any more: it may wait for one.
        assert_eq!(cache.get_with(&3, || 3), Ok(Arc::new(3)));
        holds_exactly(&cache);
    });
}

#[test]
fn a_loader_that_asks_for_one_of_its_keys_is_told() {
    within_a_minute(|| {
        for own in [1, 2, 3] {
            let cache = Cache::open(&SETUP).unwrap();
            let found = cache.get_many(&[1, 2, 3], |absent| {
                assert_eq!(cache.get_with(&own, || 5), Err(GetError::WaitsForItself));
                let keys = [4, own];
                let found = cache.get_many(&keys, |absent| Ok(hundreds(absent)));
                assert_eq!(found, Err(GetError::WaitsForItself));
                Ok(hundreds(absent))
            });
            assert_eq!(sorted(found.unwrap()), [(1, 100), (2, 200), (3, 300)]);
            // The load of 4 had ended before.
            assert_eq!(cache.look(&4), Ok(Some(Arc::new(400))));
            holds_exactly(&cache);
        }
    });
}

#[test]
fn loaders_of_several_keys_that_wait_for_each_other_are_told() {
    within_a_minute(|| {
        // Whichever keys of the other's they ask for.
        for (first, second) in [(1, 3), (1, 4), (2, 3), (2, 4)] {
            let (cache, gate) = (Cache::open(&SETUP).unwrap(), std::sync::Barrier::new(2));
            let told = Mutex::new(0);
            let ask = |own: [u64; 2], other: u64| {
                let found = cache.get_many(&own, |absent| {
                    gate.wait();
                    match cache.get_with(&other, || 0) {
                        Ok(value) => assert_eq!(*value, 100 * other),
                        Err(error) => {
                            assert_eq!(error, GetError::WaitsForItself);
                            *told.lock().unwrap() += 1;
                        }
                    }
                    Ok(hundreds(absent))
                });
                assert_eq!(sorted(found.unwrap()), own.map(|key| (key, 100 * key)));
            };
            std::thread::scope(|s| {
                s.spawn(|| ask([1, 2], second));
                ask([3, 4], first);
            });
            assert_eq!(told.into_inner().unwrap(), 1);
            holds_exactly(&cache);
        }
    });
}

#[test]
fn the_listener_is_told_once_all_loads_have_landed_and_may_ask_for_their_keys() {
    static CACHE: OnceLock<Cache> = OnceLock::new();
    static TOLD: Mutex<Vec<(u64, u64, Cause)>> = Mutex::new(vec![]);
    within_a_minute(|| {
        let cache = CACHE.get_or_init(|| {
            Cache::open(&SETUP.after_write(Duration::from_millis(10))).unwrap().with_listener(|left| {
                for key in [1, 2, 3] {
                    let got = CACHE.get().unwrap().get_at(&key, 10, || unreachable!("it is there"));
                    assert_eq!(got, Ok(Arc::new(100 * key)));
                }
                TOLD.lock().unwrap().push((*left.key, *left.value, left.cause));
            })
        });
        for (key, moment) in [(1, 0), (2, 0), (3, 0), (5, 0), (4, 5)] {
            cache.store_at(&key, key, 1, moment).unwrap();
        }
        // 1, 2 and 3 leave by the look-ups, 5 too or by a landing; 4 is found.
        let found = cache.get_many_at(&[4, 1, 2, 3], 10, |absent| Ok(hundreds(absent)));
        assert_eq!(sorted(found.unwrap()), [(1, 100), (2, 200), (3, 300), (4, 4)]);
        drop(cache.clean_at(10).unwrap());
        let mut told = std::mem::take(&mut *TOLD.lock().unwrap());
        told.sort_unstable_by_key(|left| left.0);
        assert_eq!(told, [1, 2, 3, 5].map(|key| (key, key, Cause::Expired)));
        holds_exactly(cache);
    });
}

#[test]
fn an_entry_that_expires_while_another_call_loads_its_key_is_told_once_the_loads_have_landed() {
    static CACHE: OnceLock<Cache> = OnceLock::new();
    static TOLD: Mutex<Vec<(u64, u64, Cause)>> = Mutex::new(vec![]);
    within_a_minute(|| {
        let cache = CACHE.get_or_init(|| {
            Cache::open(&SETUP.refresh(Duration::from_millis(5)).after_write(Duration::from_millis(10)))
                .unwrap()
                .with_listener(|left| {
                    let got = CACHE.get().unwrap().get_at(&1, 10, || unreachable!("it is there"));
                    assert_eq!(got, Ok(Arc::new(100)));
                    TOLD.lock().unwrap().push((*left.key, *left.value, left.cause));
                })
        });
        cache.store_at(&5, 7, 1, 0).unwrap();
        // It is due at 6, and has expired at 10, while its load is open.
        let got = cache.get_at(&5, 6, || {
            let found = cache.get_many_at(&[1, 5], 10, |absent| Ok(hundreds(absent)));
            assert_eq!(found, Err(GetError::WaitsForItself));
            Ok((8, 1))
        });
        assert_eq!((got, TOLD.lock().unwrap().clone()), (Ok(Arc::new(8)), vec![(5, 7, Cause::Expired)]));
        holds_exactly(cache);
    });
}

#[test]
fn a_change_during_the_loader_keeps_that_key_s_value_out() {
    let cache = Cache::open(&SETUP).unwrap();
    let found = cache.get_many(&[1, 2, 3], |absent| {
        cache.store(&1, 7, 1).unwrap();
        assert_eq!(cache.get_or_insert(&2, 8, 1), Ok(Arc::new(8)));
        Ok(hundreds(absent))
    });
    assert_eq!(sorted(found.unwrap()), [(1, 100), (2, 200), (3, 300)]);
    let held = [1, 2, 3].map(|key| cache.look(&key).unwrap().map(|value| *value));
    assert_eq!((held, cache.stats().loose), ([Some(7), Some(8), Some(300)], 2));
    holds_exactly(&cache);
}
