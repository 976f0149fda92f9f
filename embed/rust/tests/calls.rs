//! The calls of `Loading` beside those with a moment: by the cache's own clock, with a value alone, with a hasher of one's own, and
//! divided among shards.
mod common;
use common::within_a_minute;
use rookdresser::{Cache, Cause, Fault, Found, GetError, Landed, Loading, Setup};
use std::hash::{BuildHasher, Hasher};
use std::sync::atomic::{AtomicU64, Ordering::SeqCst};
use std::sync::{Arc, Mutex};
use std::time::Duration;

#[test]
fn entries_expire_and_get_due_by_the_cache_s_own_clock() {
    within_a_minute(|| {
        let open = |setup| {
            let cache = Loading::<u64, u64, ()>::open(&setup).unwrap();
            cache.store(&1, Arc::new(7), 1).unwrap();
            cache
        };
        for setup in
            [Setup::of(10).after_write(Duration::from_millis(1)), Setup::of(10).after_access(Duration::from_millis(1))]
        {
            let cache = open(setup);
            while cache.clean().unwrap().is_empty() {
                std::thread::yield_now();
            }
            assert_eq!((cache.look(&1), cache.stats().expired, cache.kept()), (Ok(None), 1, (0, 0)));
        }
        let cache = open(Setup::of(10).refresh(Duration::from_millis(1)));
        while *cache.get_with(&1, || 8).unwrap() == 7 {
            std::thread::yield_now();
        }
        assert!(cache.stats().refreshes == 1 && cache.numbers().latest > 0);
    });
}

#[test]
fn without_a_duration_the_clock_stands_still() {
    let cache = Loading::<u64, u64, ()>::open(&Setup::of(10)).unwrap();
    assert_eq!(*cache.get(&1, || Ok((7, 2))).unwrap(), 7);
    assert_eq!((cache.put(&1, Arc::new(8), 3).unwrap().len(), cache.numbers().weight), (1, 3));
    assert_eq!((cache.forget(&1), cache.drop_key(&1).unwrap().len()), (Ok(false), 1));
    cache.store(&2, Arc::new(9), 1).unwrap();
    assert_eq!((cache.clean().unwrap().len(), cache.clear().unwrap().len()), (0, 1));
    assert_eq!((cache.numbers().latest, cache.numbers().step), (0, 8));
}

#[test]
fn a_loader_may_return_the_value_alone() {
    let cache = Loading::<String, String, Fault>::open(&Setup::of(10)).unwrap();
    assert_eq!(*cache.get_with("a", || String::from("of a")).unwrap(), "of a");
    assert_eq!(*cache.try_get_with("b", || Ok(String::from("of b"))).unwrap(), "of b");
    let failed = cache.try_get_with("c", || Err(Fault::TooHeavy));
    assert_eq!(failed, Err(GetError::Load(Arc::new(Fault::TooHeavy))));
    assert_eq!(*cache.get_with("a", || String::from("of another")).unwrap(), "of a");
    assert_eq!((cache.numbers().weight, cache.numbers().entries), (2, 2));
}

#[test]
fn a_store_takes_a_value_or_a_share_of_one() {
    struct Page(u64); // neither Clone nor anything else
    let cache = Loading::<String, Page, ()>::open(&Setup::of(10)).unwrap();
    let there = || cache.look("a").unwrap().unwrap();
    let hour = Duration::from_secs(3600);
    let stores: [&dyn Fn(u64); 6] = [
        &|text| cache.store("a", Page(text), 1).unwrap(),
        &|text| cache.store_at("a", Page(text), 1, 0).unwrap(),
        &|text| cache.store_for("a", Page(text), 1, hour).unwrap(),
        &|text| cache.store_for_at("a", Page(text), 1, hour, 0).unwrap(),
        &|text| drop(cache.put("a", Page(text), 1).unwrap()),
        &|text| drop(cache.put_at("a", Page(text), 1, 0).unwrap()),
    ];
    for (text, store) in (1..).zip(stores) {
        store(text);
        assert_eq!(there().0, text);
    }
    assert!(cache.replace_if("a", &there(), Page(7), 1).unwrap() && there().0 == 7);
    assert!(cache.replace_if_at("a", &there(), Page(8), 1, 0).unwrap() && there().0 == 8);
    assert_eq!(
        (cache.get_or_insert("b", Page(9), 1).unwrap().0, cache.get_or_insert("b", Page(0), 1).unwrap().0),
        (9, 9)
    );
    assert_eq!(cache.get_or_insert_at("c", Page(10), 1, 0).unwrap().0, 10);
    // A share stays the same one.
    let share = there();
    cache.store("a", Page(11), 1).unwrap();
    cache.store("a", share.clone(), 1).unwrap();
    assert!(Arc::ptr_eq(&there(), &share) && Arc::ptr_eq(&cache.get_or_insert("d", share.clone(), 1).unwrap(), &share));
}

#[test]
fn what_a_store_makes_leave_is_told_and_dropped() {
    let told = Arc::new(Mutex::new(Vec::new()));
    let telling = told.clone();
    let setup = Setup { bound: 10, ..Setup::of(2) };
    let cache = Loading::<u64, u64, ()>::open(&setup)
        .unwrap()
        .with_listener(move |left| telling.lock().unwrap().push((*left.key, *left.value, left.cause)));
    let values: Vec<_> = (0..4).map(Arc::new).collect();
    cache.store(&1, values[0].clone(), 1).unwrap();
    cache.store(&1, values[1].clone(), 1).unwrap();
    assert_eq!(cache.store(&2, values[2].clone(), 11), Err(Fault::TooHeavy));
    // One of the two leaves for the third key, or the third one itself.
    cache.store(&2, values[3].clone(), 1).unwrap();
    cache.store(&3, values[3].clone(), 1).unwrap();
    let told = told.lock().unwrap();
    assert_eq!((told[0], told.len()), ((1, 0, Cause::Replaced), 2));
    assert_eq!(told[1].2, Cause::Size);
    // This test has one share of each value, and the cache one of each that it holds.
    let shares: usize = values.iter().map(Arc::strong_count).sum();
    assert_eq!((shares, cache.kept(), cache.stats().refused[Fault::TooHeavy.place()]), (4 + 2, (2, 2), 1));
}

// A hash that is the number itself, or the same for all, and a count of how many were made.
#[derive(Clone)]
struct Counting {
    is_constant: bool,
    made: Arc<AtomicU64>,
    number: u64,
}

impl Counting {
    fn new(is_constant: bool) -> Counting {
        Counting { is_constant, made: Arc::new(AtomicU64::new(0)), number: 0 }
    }
}

impl BuildHasher for Counting {
    type Hasher = Counting;

    fn build_hasher(&self) -> Counting {
        self.made.fetch_add(1, SeqCst);
        self.clone()
    }
}

impl Hasher for Counting {
    fn finish(&self) -> u64 {
        if self.is_constant {
            7
        } else {
            self.number
        }
    }

    fn write(&mut self, _: &[u8]) {
        unreachable!("the keys are numbers")
    }

    fn write_u64(&mut self, number: u64) {
        self.number = number;
    }
}

#[test]
fn keys_are_hashed_by_the_caller_s_hasher_and_told_apart_if_all_hashes_are_equal() {
    for is_constant in [false, true] {
        let hasher = Counting::new(is_constant);
        let made = hasher.made.clone();
        let cache = Loading::<u64, u64, (), _>::sharded_with_hasher(4, &Setup::of(100), hasher).unwrap();
        for key in 0..80 {
            assert_eq!(*cache.get(&key, || Ok((key + 1, 1))).unwrap(), key + 1);
        }
        for key in 0..80 {
            assert_eq!(cache.look(&key).unwrap().as_deref(), Some(&(key + 1)));
        }
        for key in (0..80).step_by(3) {
            assert_eq!(cache.drop_key(&key).unwrap().len(), 1);
        }
        for key in 0..80 {
            assert_eq!(cache.look(&key).unwrap().is_some(), key % 3 != 0);
        }
        assert_eq!((made.load(SeqCst), cache.numbers().entries, cache.kept()), (80 * 3 + 27, 53, (53, 53)));
    }
    let hasher = Counting::new(true);
    let made = hasher.made.clone();
    let mut cache = Cache::<u64, u64, _>::with_hasher(&Setup::of(10), hasher).unwrap();
    assert_eq!((cache.put(&1, 10, 1, 0), cache.put(&2, 20, 1, 0)), (Ok(vec![]), Ok(vec![])));
    assert_eq!(cache.look(&1, 0).unwrap().0, Some(&10));
    assert_eq!(cache.look(&2, 0).unwrap().0, Some(&20));
    assert_eq!(made.load(SeqCst), 4);
}

#[test]
fn a_landing_of_a_load_that_isn_t_open_changes_nothing() {
    let mut cache = Cache::<String, u64>::open(&Setup::of(10)).unwrap();
    let (key, other) = (String::from("a"), String::from("b"));
    let Found::Lead(id) = cache.seek(&key, 0).unwrap().0 else { panic!("nothing is there") };
    assert_eq!(cache.land(id + 1, &key, 1, 1, 0), (Landed::Gone, vec![]));
    assert_eq!(cache.fail(id + 1, &key, 0), (Landed::Gone, vec![]));
    assert_eq!(
        (cache.land(id, &other, 1, 1, 0), cache.fail(id, &other, 0)),
        ((Landed::Gone, vec![]), (Landed::Gone, vec![]))
    );
    assert_eq!((cache.numbers().flights, cache.kept()), (1, (0, 1)));
    assert_eq!(cache.land(id, &key, 2, 1, 0), (Landed::Kept(1), vec![]));
    assert_eq!(cache.look(&key, 0).unwrap().0, Some(&2));
    assert_eq!(cache.kept(), (1, 1));
}

#[test]
fn an_open_cache_is_divided_and_may_hold_more_than_one_of_the_library_s_caches() {
    assert_eq!(Loading::<u64, u64, ()>::open(&Setup::of(255)).unwrap().shards(), 1);
    let cache = Loading::<u64, u64, (), _>::with_hasher(&Setup::of(100_000), Counting::new(false)).unwrap();
    assert!(cache.shards() >= 2);
    for key in 0..200_000 {
        cache.store(&key, Arc::new(key), 1).unwrap();
    }
    // All shards are full: even a hash that is the number itself spreads over them.
    assert_eq!((cache.numbers().entries, cache.kept()), (100_000, (100_000, 100_000)));
}
