//! What is there, with no use of it.
use rookdresser::{Loading, Numbers, Setup};
use std::sync::Arc;
use std::time::Duration;

type Cache = Loading<u64, u64, ()>;

fn sorted(cache: &Cache, now: u64) -> Vec<u64> {
    let mut keys: Vec<_> = cache.keys_at(now).iter().map(|key| **key).collect();
    keys.sort_unstable();
    keys
}

#[test]
fn the_keys_are_those_that_a_look_would_find() {
    let setup = Setup::of(100).after_write(Duration::from_millis(10));
    for shards in [1, 4] {
        let cache = Cache::sharded(shards, &setup).unwrap();
        (0..50).for_each(|key| cache.store_at(&key, key, 1, key / 10).unwrap());
        drop(cache.drop_key_at(&49, 4).unwrap());
        // Of 0 to 48, the first ten expire at 10, the next ten at 11, and so on.
        for (now, least) in [(4, 0), (9, 0), (10, 10), (11, 20), (13, 40), (14, 49)] {
            assert_eq!(sorted(&cache, now), (least..49).collect::<Vec<_>>());
            assert!((0..50).all(|key| cache.contains_key_at(&key, now) == (least..49).contains(&key)));
        }
        // What has expired is there until another call lets it leave.
        assert_eq!((cache.numbers().entries, cache.kept()), (49, (49, 49)));
    }
}

#[test]
fn a_peek_is_no_use_and_no_count_and_moves_no_moment() {
    let cache =
        Cache::open(&Setup::of(8).after_write(Duration::from_millis(10)).after_access(Duration::from_millis(5)))
            .unwrap();
    cache.store_at(&1, 7, 1, 0).unwrap();
    assert!(cache.contains_key_at(&1, 4) && !cache.contains_key_at(&2, 4) && !cache.contains_key_at(&1, 5));
    assert_eq!(sorted(&cache, 4), [1]);
    assert_eq!(
        (cache.numbers(), cache.stats().hits),
        (Numbers { entries: 1, weight: 1, step: 1, ..Numbers::default() }, 0)
    );
    // The entry was used when it was stored, at 0.
    assert_eq!(cache.look_at(&1, 5), Ok(None));
}

#[test]
fn a_key_whose_load_is_open_is_not_there() {
    let cache = Cache::open(&Setup::of(8)).unwrap();
    let got = cache.get_with(&1, || {
        assert!(!cache.contains_key(&1) && cache.keys().is_empty());
        7
    });
    assert_eq!((got, cache.contains_key(&1), cache.keys()), (Ok(Arc::new(7)), true, vec![Arc::new(1)]));
}

#[test]
fn a_peek_beside_hits_without_the_lock_finds_what_is_there() {
    let cache = Cache::sharded(1, &Setup::of(8)).unwrap();
    cache.store(&1, 7, 1).unwrap();
    (0..1000).for_each(|_| assert!(cache.look(&1).unwrap().is_some()));
    assert!(cache.contains_key(&1) && !cache.contains_key(&2));
    assert_eq!((cache.keys(), cache.stats().hits), (vec![Arc::new(1)], 1000));
}
