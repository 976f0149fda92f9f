//! Entries with a life of their own, at moments that the tests give.
#[path = "common/block_on.rs"]
mod block_on;
use block_on::block_on;
use rookdresser::{future, Cache, Cause, Found, Loading, Reads, Setup, Token, Tokens};
use std::collections::HashMap;
use std::sync::{Arc, Mutex};
use std::time::Duration;

type Pages = Loading<u64, u64, ()>;

fn ms(life: u64) -> Duration {
    Duration::from_millis(life)
}

// The first moment from `now` on at which the key has no entry, if that is within a hundred milliseconds.
fn end(cache: &Pages, key: u64, now: u64) -> Option<u64> {
    (now..now + 100).find(|&now| !cache.contains_key_at(&key, now))
}

#[test]
fn an_entry_with_a_short_life_leaves_beside_one_without() {
    let left = Arc::new(Mutex::new(Vec::new()));
    let told = left.clone();
    let cache = Pages::open(&Setup::of(100)).unwrap();
    let cache = cache.with_listener(move |gone| told.lock().unwrap().push((*gone.key, *gone.value, gone.cause)));
    cache.store_for_at(&1, 11, 1, ms(5), 1000).unwrap();
    cache.store_at(&2, 12, 1, 1000).unwrap();
    assert_eq!(cache.look_at(&1, 1004).unwrap().as_deref(), Some(&11));
    assert_eq!(cache.keys_at(1005).len(), 1);
    assert_eq!(cache.look_at(&1, 1005).unwrap(), None);
    assert_eq!(cache.look_at(&2, 1005).unwrap().as_deref(), Some(&12));
    assert_eq!(*left.lock().unwrap(), [(1, 11, Cause::Expired)]);
    assert_eq!(cache.kept(), (1, 1));
}

#[test]
fn clean_takes_out_what_has_outlived_its_life() {
    let cache = Pages::open(&Setup::of(100)).unwrap();
    for life in [3, 5, 7] {
        cache.store_for_at(&life, life, 1, ms(life), 0).unwrap();
    }
    assert_eq!(cache.clean_at(5).unwrap().len(), 2);
    assert_eq!(cache.kept(), (1, 1));
}

#[test]
fn a_use_lengthens_no_life() {
    for reads in [Reads::Shared, Reads::Exact] {
        let cache = Pages::open(&Setup::of(100)).unwrap().with_reads(reads);
        cache.store_for_at(&1, 7, 1, ms(1000), 0).unwrap();
        for now in 0..1000 {
            assert_eq!(cache.look_at(&1, now).unwrap().as_deref(), Some(&7));
            assert_eq!(*cache.get_at(&1, now, || unreachable!("it is there")).unwrap(), 7);
        }
        assert_eq!(cache.look_at(&1, 1000).unwrap(), None);
    }
}

#[test]
fn a_duration_of_the_cache_ends_a_life_earlier() {
    for (after_write, after_access, life, ends) in [(5, 0, 9, 5), (9, 0, 5, 5), (0, 5, 9, 5), (0, 9, 5, 5)] {
        let setup = Setup::of(100).after_write(ms(after_write)).after_access(ms(after_access));
        let cache = Pages::open(&setup).unwrap();
        cache.store_for_at(&1, 7, 1, ms(life), 0).unwrap();
        assert_eq!(end(&cache, 1, 0), Some(ends));
    }
}

#[test]
fn the_shortest_life_is_a_millisecond_and_the_longest_49_days() {
    let most = u64::from(u32::MAX);
    let rows = [
        (Duration::ZERO, Some(1)),
        (ms(1), Some(1)),
        (ms(most), Some(most)),
        (ms(most + 1), None),
        (Duration::MAX, None),
    ];
    for (life, ends) in rows {
        let cache = Pages::open(&Setup::of(100)).unwrap();
        cache.store_for_at(&1, 7, 1, life, 0).unwrap();
        let last = ends.unwrap_or(1 << 50) - 1;
        assert!(cache.contains_key_at(&1, last), "{life:?}");
        assert_eq!(cache.contains_key_at(&1, last + 1), ends.is_none(), "{life:?}");
    }
}

#[test]
fn a_load_gives_a_life_that_counts_from_its_call() {
    let cache = Pages::open(&Setup::of(100)).unwrap();
    assert_eq!(*cache.get_for_at(&1, 100, || Ok((7, 1, ms(10)))).unwrap(), 7);
    assert_eq!(end(&cache, 1, 100), Some(110));
    // One without a life in its place.
    assert_eq!(*cache.get_at(&1, 110, || Ok((8, 1))).unwrap(), 8);
    assert_eq!(end(&cache, 1, 110), None);
    let cache = future::Loading::from(Pages::open(&Setup::of(100)).unwrap());
    assert_eq!(*block_on(cache.get_for_at(&1, 100, async { Ok((7, 1, ms(10))) })).unwrap(), 7);
    assert_eq!(end(cache.blocking(), 1, 100), Some(110));
    assert_eq!(*block_on(cache.get_at(&1, 110, async { Ok((8, 1)) })).unwrap(), 8);
    assert_eq!(end(cache.blocking(), 1, 110), None);
}

#[test]
fn a_replacement_has_a_life_of_its_own() {
    let none = Duration::MAX;
    for (first, then, ends) in
        [(ms(50), ms(5), Some(25)), (ms(5), ms(50), Some(70)), (ms(5), none, None), (none, ms(5), Some(25))]
    {
        for loads in [false, true] {
            let cache = Pages::open(&Setup::of(100).refresh(ms(20))).unwrap();
            cache.store_for_at(&1, 1, 1, first, 0).unwrap();
            // The load is of an entry that is due, or has expired.
            if loads {
                assert_eq!(*cache.get_for_at(&1, 20, || Ok((2, 1, then))).unwrap(), 2);
            } else {
                cache.store_for_at(&1, 2, 1, then, 20).unwrap();
            }
            assert_eq!(end(&cache, 1, 20), ends, "{first:?}, {then:?}, {loads}");
        }
    }
    let cache = Pages::open(&Setup::of(100)).unwrap();
    for puts in [false, true] {
        cache.store_for_at(&1, 1, 1, ms(5), 0).unwrap();
        let stored = if puts { cache.put_at(&1, 2, 1, 0).map(drop) } else { cache.store_at(&1, 2, 1, 0) };
        stored.unwrap();
        assert_eq!(end(&cache, 1, 0), None);
    }
    let old = Arc::new(3);
    cache.store_for_at(&1, old.clone(), 1, ms(5), 0).unwrap();
    assert!(cache.replace_if_at(&1, &old, 4, 1, 4).unwrap());
    assert_eq!(end(&cache, 1, 4), None);
}

#[test]
fn a_refresh_gives_a_new_life_and_one_that_fails_keeps_the_old() {
    let cache = Pages::open(&Setup::of(100).refresh(ms(10))).unwrap();
    cache.store_for_at(&1, 1, 1, ms(15), 0).unwrap();
    assert_eq!(*cache.get_for_at(&1, 10, || Err(())).unwrap(), 1);
    assert_eq!(*cache.get_for_at(&1, 10, || Ok((2, 1, ms(7)))).unwrap(), 2);
    assert_eq!(end(&cache, 1, 10), Some(17));
    cache.store_for_at(&1, 3, 1, ms(15), 17).unwrap();
    assert_eq!(*cache.get_for_at(&1, 27, || Err(())).unwrap(), 3);
    assert_eq!(end(&cache, 1, 27), Some(32));
}

#[test]
fn the_caches_for_one_owner_take_lives_too() {
    let mut tokens = Tokens::<u64>::open(&Setup::of(100)).unwrap();
    let token = Token { token: 7, weight: 1 };
    tokens.put_for(1, token, ms(5), 0).unwrap();
    let Found::Lead(id) = tokens.seek(2, 0).unwrap() else { panic!("it is there") };
    tokens.land_for(id, 2, token, ms(6), 0).unwrap();
    assert_eq!(
        (tokens.peek(1, 4), tokens.peek(1, 5), tokens.peek(2, 5), tokens.peek(2, 6)),
        (Some(token), None, Some(token), None)
    );
    let mut cache = Cache::<u64, u64>::open(&Setup::of(100)).unwrap();
    cache.put_for(&1, 7, 1, ms(5), 0).unwrap();
    let Found::Lead(id) = cache.seek(&2, 0).unwrap().0 else { panic!("it is there") };
    cache.land_for(id, &2, 8, (1, ms(6)), 0);
    for (key, now, value) in [(1, 4, Some(&7)), (1, 5, None), (2, 5, Some(&8)), (2, 6, None)] {
        assert_eq!(cache.peek(&key, now), value);
    }
}

// By the cache's own clock, which doesn't stand still after the first life: no moment is compared.
#[test]
fn the_calls_without_a_moment_store_with_a_life() {
    let cache = Pages::open(&Setup::of(100)).unwrap();
    cache.store_for(&1, 7, 1, Duration::from_secs(3600)).unwrap();
    assert_eq!(*cache.get_for(&2, || Ok((8, 1, Duration::from_secs(3600)))).unwrap(), 8);
    assert_eq!((cache.look(&1).unwrap().as_deref(), cache.look(&2).unwrap().as_deref()), (Some(&7), Some(&8)));
    assert_eq!(end(&cache, 1, 4_000_000), Some(4_000_000));
}

#[test]
fn a_hundred_thousand_random_calls_are_those_of_a_map_with_deadlines() {
    for (after_write, reads) in [(0, Reads::Shared), (300, Reads::Shared), (300, Reads::Exact)] {
        let cache = Pages::sharded(1, &Setup::of(1000).after_write(ms(after_write))).unwrap().with_reads(reads);
        let (mut model, mut now, mut hits, mut seed) = (HashMap::new(), 0, 0, 70_u64);
        let mut random = |below: u64| {
            seed = seed.wrapping_mul(6_364_136_223_846_793_005).wrapping_add(1_442_695_040_888_963_407);
            (seed >> 33) % below
        };
        for turn in 0..100_000_u64 {
            now += u64::from(turn % 7 == 0);
            let key = random(300);
            let life = random(2) * random(900);
            let given = if life == 0 { Duration::MAX } else { ms(life) };
            let until = [life, after_write].into_iter().filter(|&age| age != 0).min().map_or(u64::MAX, |age| now + age);
            let there = model.get(&key).filter(|&&(_, until)| now < until).map(|&(value, _)| value);
            // Most calls are look-ups, and they come in runs.
            match if turn % 1000 < 700 { 2 } else { random(20) } {
                0 => {
                    cache.store_for_at(&key, turn, 1, given, now).unwrap();
                    model.insert(key, (turn, until));
                }
                1 => {
                    let got = *cache.get_for_at(&key, now, || Ok((turn, 1, given))).unwrap();
                    assert_eq!(got, there.unwrap_or(turn), "{turn}");
                    if there.is_none() {
                        model.insert(key, (turn, until));
                    }
                }
                _ => {
                    assert_eq!(cache.look_at(&key, now).unwrap().map(|value| *value), there, "{turn}");
                    hits += u64::from(there.is_some());
                }
            }
        }
        assert!(hits > 10_000, "{hits}");
        let numbers = cache.numbers();
        assert_eq!(cache.kept(), (numbers.entries as usize, numbers.entries as usize));
    }
}
