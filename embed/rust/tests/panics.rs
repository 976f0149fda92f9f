//! Drops and clones that panic, alone, beside each other, and beside a loader's panic: the process goes on, and nothing is kept for
//! good.
use rookdresser::{Cache, Cause, Fault, Found, GetError, Landed, Loading, Setup};
use std::hash::{Hash, Hasher};
use std::panic::{catch_unwind, AssertUnwindSafe};
use std::sync::atomic::{AtomicBool, AtomicU64, Ordering::SeqCst};
use std::sync::{Arc, OnceLock};
use std::thread;
use std::time::Duration;

// How many things there are, and whether they panic as they are cloned or dropped.
#[derive(Default)]
struct Fuse {
    live: AtomicU64,
    clones_panic: AtomicBool,
    drops_panic: AtomicBool,
}

impl Fuse {
    fn thing(self: &Arc<Fuse>, number: u64) -> Thing {
        self.live.fetch_add(1, SeqCst);
        Thing { number, fuse: self.clone() }
    }

    fn light(&self) {
        self.drops_panic.store(true, SeqCst);
    }
}

struct Thing {
    number: u64,
    fuse: Arc<Fuse>,
}

impl Drop for Thing {
    fn drop(&mut self) {
        self.fuse.live.fetch_sub(1, SeqCst);
        assert!(!self.fuse.drops_panic.load(SeqCst), "of a drop");
    }
}

impl Clone for Thing {
    fn clone(&self) -> Thing {
        assert!(!self.fuse.clones_panic.load(SeqCst), "of a clone");
        self.fuse.thing(self.number)
    }
}

impl Hash for Thing {
    fn hash<H: Hasher>(&self, state: &mut H) {
        assert!(self.number != 99, "of the hash");
        self.number.hash(state);
    }
}

impl PartialEq for Thing {
    fn eq(&self, other: &Thing) -> bool {
        self.number == other.number
    }
}

impl Eq for Thing {}

// The text of a panic of the work.
fn panic_of<T>(work: impl FnOnce() -> T) -> Option<&'static str> {
    let panic = catch_unwind(AssertUnwindSafe(|| drop(work()))).err()?;
    Some(panic.downcast_ref::<&str>().expect("a panic has a text"))
}

#[test]
fn nothing_is_cloned_as_an_entry_leaves_during_a_load() {
    let (keys, values) = (Arc::new(Fuse::default()), Arc::new(Fuse::default()));
    let mut cache = Cache::<Thing, Thing>::open(&Setup::of(8).refresh(Duration::from_millis(10))).unwrap();
    for number in 0..5 {
        cache.put(&keys.thing(number), values.thing(number), 1, 0).unwrap();
    }
    let due = keys.thing(0);
    let Found::HitLead(_, id) = cache.seek(&due, 20).unwrap().0 else { panic!("it is due") };
    keys.clones_panic.store(true, SeqCst);
    let left = cache.clear(20).unwrap();
    assert_eq!((left.len(), cache.numbers().entries, values.live.load(SeqCst)), (5, 0, 5));
    assert!(left.iter().all(|left| left.key.number == left.value.number && left.cause == Cause::Explicit));
    drop(left);
    // The load still uses its key.
    assert_eq!((cache.kept(), values.live.load(SeqCst)), ((0, 1), 0));
    assert_eq!(cache.fail(id, &due, 20).0, Landed::Failed(1));
    assert_eq!((cache.kept(), keys.live.load(SeqCst)), ((0, 0), 1));
}

#[test]
fn a_loaded_value_isn_t_kept_for_good_if_the_old_one_panics_as_it_is_dropped() {
    let values = Arc::new(Fuse::default());
    let cache = Loading::<u64, Thing, ()>::open(&Setup::of(10).refresh(Duration::from_millis(10))).unwrap();
    cache.put_at(&1, Arc::new(values.thing(0)), 1, 0).unwrap();
    for now in [20, 40, 60] {
        values.light();
        assert_eq!(panic_of(|| cache.get_at(&1, now, || Ok((values.thing(now), 1)))), Some("of a drop"));
        values.drops_panic.store(false, SeqCst);
        assert_eq!(
            (values.live.load(SeqCst), cache.look_at(&1, now).unwrap().map(|value| value.number)),
            (1, Some(now))
        );
    }
    drop(cache.clear_at(60).unwrap());
    assert_eq!(values.live.load(SeqCst), 0);
}

#[test]
fn a_key_and_a_value_of_one_entry_may_both_panic_as_they_are_dropped() {
    let fuse = Arc::new(Fuse::default());
    let cache = Loading::<Thing, Thing, ()>::open(&Setup::of(2)).unwrap();
    let keys: Vec<_> = (0..5).map(|number| fuse.thing(number)).collect();
    fuse.light();
    let panicked = |key: &Thing| panic_of(|| cache.get_at(key, 0, || Ok((fuse.thing(key.number), 1)))).is_some();
    // Two entries are held, so three of five were evicted.
    assert_eq!(keys.iter().filter(|key| panicked(key)).count(), 3);
    assert_eq!((cache.kept(), cache.numbers().entries, fuse.live.load(SeqCst)), ((2, 2), 2, 5 + 2 * 2));
    // So may all four that the cache holds as it is dropped.
    assert_eq!(panic_of(|| drop(cache)), Some("of a drop"));
    assert_eq!(fuse.live.load(SeqCst), 5);
    let mut owned = Cache::<Thing, Thing>::open(&Setup::of(2)).unwrap();
    fuse.drops_panic.store(false, SeqCst);
    owned.put(&keys[0], fuse.thing(0), 1, 0).unwrap();
    owned.put(&keys[1], fuse.thing(1), 1, 0).unwrap();
    fuse.light();
    assert_eq!(panic_of(|| drop(owned)), Some("of a drop"));
    assert_eq!(fuse.live.load(SeqCst), 5);
    fuse.drops_panic.store(false, SeqCst);
}

#[test]
fn a_loader_and_the_drop_of_its_key_may_both_panic() {
    let keys = Arc::new(Fuse::default());
    let cache = Loading::<Thing, u64, ()>::open(&Setup::of(2)).unwrap();
    let key = keys.thing(1);
    let got = panic_of(|| {
        cache.get_at(&key, 0, || {
            keys.light();
            panic!("of the loader")
        })
    });
    keys.drops_panic.store(false, SeqCst);
    assert_eq!(
        (got, cache.kept(), cache.numbers().flights, keys.live.load(SeqCst)),
        (Some("of the loader"), (0, 0), 0, 1)
    );
    // If the loader fails alone, the call panics for the key.
    let got = panic_of(|| {
        cache.get_at(&key, 0, || {
            keys.light();
            Err(())
        })
    });
    keys.drops_panic.store(false, SeqCst);
    assert_eq!((got, cache.kept(), cache.numbers().flights, keys.live.load(SeqCst)), (Some("of a drop"), (0, 0), 0, 1));
}

#[test]
fn a_loader_and_the_drop_of_the_old_value_may_both_panic() {
    let values = Arc::new(Fuse::default());
    let cache = Loading::<u64, Thing, ()>::open(&Setup::of(4).refresh(Duration::from_millis(10))).unwrap();
    cache.put_at(&1, Arc::new(values.thing(1)), 1, 0).unwrap();
    let got = panic_of(|| {
        cache.get_at(&1, 20, || {
            // The load itself has the last share of the old value now.
            drop(cache.put_at(&1, Arc::new(values.thing(2)), 1, 20).unwrap());
            assert_eq!(values.live.load(SeqCst), 2);
            values.light();
            panic!("of the loader")
        })
    });
    values.drops_panic.store(false, SeqCst);
    assert_eq!(
        (got, values.live.load(SeqCst), cache.kept(), cache.numbers().flights),
        (Some("of the loader"), 1, (1, 1), 0)
    );
    assert_eq!(cache.look_at(&1, 20).unwrap().map(|value| value.number), Some(2));
}

#[test]
fn a_refused_value_and_its_key_may_both_panic_as_they_are_dropped() {
    let fuse = Arc::new(Fuse::default());
    let cache = Loading::<Thing, Thing, ()>::open(&Setup { bound: 10, ..Setup::of(4) }).unwrap();
    let (key, value) = (fuse.thing(1), Arc::new(fuse.thing(2)));
    fuse.light();
    assert_eq!(panic_of(|| cache.put_at(&key, value, 11, 0)), Some("of a drop"));
    fuse.drops_panic.store(false, SeqCst);
    assert_eq!((fuse.live.load(SeqCst), cache.kept(), cache.stats().refused[Fault::TooHeavy.place()]), (1, (0, 0), 1));
    let (mut owned, value) =
        (Cache::<Thing, Thing>::open(&Setup { bound: 10, ..Setup::of(4) }).unwrap(), fuse.thing(2));
    fuse.light();
    assert_eq!(panic_of(|| owned.put(&key, value, 11, 0)), Some("of a drop"));
    fuse.drops_panic.store(false, SeqCst);
    assert_eq!((fuse.live.load(SeqCst), owned.kept()), (1, (0, 0)));
}

#[test]
fn what_a_loader_owns_may_panic_as_it_is_dropped() {
    let owned = Arc::new(Fuse::default());
    let value = Arc::new(7);
    let cache = Loading::<u64, u64, ()>::open(&Setup::of(4)).unwrap();
    cache.store_at(&1, value.clone(), 1, 0).unwrap();
    let thing = owned.thing(1);
    owned.light();
    let load = move || {
        let thing = thing;
        Ok((thing.number, 1))
    };
    let got = panic_of(|| cache.get_at(&1, 0, load));
    // This test has a share of the value, and the cache has one.
    assert_eq!((got, owned.live.load(SeqCst), Arc::strong_count(&value)), (Some("of a drop"), 0, 2));
}

#[test]
fn a_loader_of_many_keys_and_the_drops_of_all_that_was_found_may_panic() {
    let (keys, values) = (Arc::new(Fuse::default()), Arc::new(Fuse::default()));
    let cache = Loading::<Thing, Thing, ()>::open(
        &Setup::of(8).refresh(Duration::from_millis(10)).after_write(Duration::from_millis(50)),
    )
    .unwrap();
    let asked: Vec<_> = (0..6).map(|number| keys.thing(number)).collect();
    for number in 0..4 {
        cache.store_at(&asked[number as usize], Arc::new(values.thing(number)), 1, 5 * number).unwrap();
    }
    // At 20 the first three are due, and the fourth is there; the last two aren't.
    let got = panic_of(|| {
        cache.get_many_at(&asked, 20, |absent| {
            assert_eq!(absent.iter().map(|key| key.number).collect::<Vec<_>>(), [0, 1, 2, 4, 5]);
            // The call itself has the last share of each value that it found.
            drop(cache.clear_at(20).unwrap());
            assert_eq!(values.live.load(SeqCst), 4);
            keys.light();
            values.light();
            panic!("of the loader")
        })
    });
    keys.drops_panic.store(false, SeqCst);
    values.drops_panic.store(false, SeqCst);
    assert_eq!((got, values.live.load(SeqCst), keys.live.load(SeqCst)), (Some("of the loader"), 0, 6));
    assert_eq!((cache.kept(), cache.numbers().flights), ((0, 0), 0));
}

#[test]
fn what_a_loader_of_many_keys_returns_may_panic_as_it_is_dropped() {
    let (keys, values) = (Arc::new(Fuse::default()), Arc::new(Fuse::default()));
    let cache = Loading::<Thing, Thing, ()>::open(&Setup { bound: 10, ..Setup::of(8) }).unwrap();
    let asked: Vec<_> = (0..3).map(|number| keys.thing(number)).collect();
    let got = panic_of(|| {
        cache.get_many_at(&asked, 0, |_| {
            // One for each that was asked for, of which the second is too heavy, and one for which nobody asked.
            let loaded = [(0, 1), (1, 11), (2, 1), (7, 1)];
            let loaded = loaded.map(|(number, weight)| (keys.thing(number), (values.thing(number), weight)));
            keys.light();
            values.light();
            Ok(loaded.into())
        })
    });
    keys.drops_panic.store(false, SeqCst);
    values.drops_panic.store(false, SeqCst);
    // The cache has two keys of its own.
    assert_eq!((got, values.live.load(SeqCst), keys.live.load(SeqCst)), (Some("of a drop"), 2, 3 + 2));
    assert_eq!((cache.kept(), cache.numbers().flights), ((2, 2), 0));
}

#[test]
fn a_hash_that_panics_among_many_keys_ends_the_loads_that_were_begun() {
    let (keys, values) = (Arc::new(Fuse::default()), Arc::new(Fuse::default()));
    let cache = Loading::<Thing, Thing, ()>::open(&Setup::of(8)).unwrap();
    let asked: Vec<_> = [0, 1, 2, 99].map(|number| keys.thing(number)).into();
    cache.store_at(&asked[1], Arc::new(values.thing(1)), 1, 0).unwrap();
    let got = panic_of(|| cache.get_many_at(&asked, 0, |_| unreachable!("not all keys are known")));
    assert_eq!((got, cache.kept(), cache.numbers().flights), (Some("of the hash"), (1, 1), 0));
    // This thread makes no load any more: it may wait for one.
    assert!(cache.get_at(&asked[0], 0, || Err(())).is_err());
    assert_eq!((cache.stats().failed, keys.live.load(SeqCst)), (3, 4 + 1));
}

#[test]
fn an_insert_and_the_drops_of_what_it_replaces_may_panic() {
    let (keys, values) = (Arc::new(Fuse::default()), Arc::new(Fuse::default()));
    let cache =
        Loading::<Thing, Thing, ()>::open(&Setup::of(8).after_write(Duration::from_millis(10)).bound(10)).unwrap();
    let key = keys.thing(1);
    let insert = |number, weight, now| {
        let value = Arc::new(values.thing(number));
        values.light();
        let got = panic_of(|| cache.get_or_insert_at(&key, value, weight, now));
        values.drops_panic.store(false, SeqCst);
        got
    };
    assert_eq!(insert(1, 1, 0), None);
    // What isn't stored is dropped: as one is there, or as it is too heavy.
    assert_eq!((insert(2, 1, 5), values.live.load(SeqCst)), (Some("of a drop"), 1));
    // The one that has expired is dropped as this one takes its place.
    assert_eq!((insert(3, 1, 10), values.live.load(SeqCst)), (Some("of a drop"), 1));
    assert_eq!(cache.look_at(&key, 10).unwrap().map(|value| value.number), Some(3));
    assert_eq!((insert(4, 11, 20), values.live.load(SeqCst)), (Some("of a drop"), 0));
    assert_eq!((cache.kept(), keys.live.load(SeqCst)), ((0, 0), 1));
}

// Makes a call as it is dropped, and then panics.
struct Calls<F: FnMut()>(F);

impl<F: FnMut()> Drop for Calls<F> {
    fn drop(&mut self) {
        (self.0)();
        panic!("of what the loader owns");
    }
}

#[test]
fn what_a_loader_owns_and_the_value_that_was_found_may_both_panic_as_they_are_dropped() {
    let values = Arc::new(Fuse::default());
    let cache = Loading::<u64, Thing, ()>::open(&Setup::of(4)).unwrap();
    cache.store_at(&1, Arc::new(values.thing(1)), 1, 0).unwrap();
    let owned = Calls(|| {
        // The get itself has the last share of the value now.
        drop(cache.drop_key_at(&1, 0).unwrap());
        assert_eq!(values.live.load(SeqCst), 1);
        values.light();
    });
    let load = move || {
        let _owned = &owned;
        Err(())
    };
    assert_eq!(panic_of(|| cache.get_at(&1, 0, load)), Some("of what the loader owns"));
    assert_eq!((values.live.load(SeqCst), cache.kept()), (0, (0, 0)));
}

#[test]
fn what_a_loader_owns_and_the_error_that_was_shared_may_both_panic_as_they_are_dropped() {
    let errors = Arc::new(Fuse::default());
    let cache = Loading::<u64, u64, Thing>::open(&Setup::of(4)).unwrap();
    let is_over = AtomicBool::new(false);
    thread::scope(|threads| {
        threads.spawn(|| {
            let failed = cache.get_at(&1, 0, || {
                while cache.stats().joins == 0 {
                    thread::yield_now();
                }
                Err(errors.thing(1))
            });
            assert!(matches!(failed, Err(GetError::Load(_))));
            drop(failed);
            is_over.store(true, SeqCst);
        });
        while cache.numbers().flights == 0 {
            thread::yield_now();
        }
        let owned = Calls(|| {
            // The caller that joined has the last share of the error then.
            while !is_over.load(SeqCst) {
                thread::yield_now();
            }
            errors.light();
        });
        let load = move || {
            let _owned = &owned;
            Ok((1, 1))
        };
        assert_eq!(panic_of(|| cache.get_at(&1, 0, load)), Some("of what the loader owns"));
    });
    assert_eq!((errors.live.load(SeqCst), cache.kept(), cache.numbers().flights), (0, (0, 0), 0));
}

#[test]
fn a_hash_a_clone_and_the_drop_of_what_was_passed_may_both_panic() {
    let (keys, values) = (Arc::new(Fuse::default()), Arc::new(Fuse::default()));
    let cache = Loading::<Thing, Thing, ()>::open(&Setup::of(4)).unwrap();
    let mut owned = Cache::<Thing, Thing>::open(&Setup::of(4)).unwrap();
    keys.clones_panic.store(true, SeqCst);
    for (number, of) in [(99, "of the hash"), (1, "of a clone")] {
        let key = keys.thing(number);
        let value = values.thing(1);
        let loads = values.thing(2);
        let shared = Arc::new(values.thing(3));
        values.light();
        assert_eq!(panic_of(|| owned.put(&key, value, 1, 0)), Some(of));
        assert_eq!(panic_of(|| cache.get_at(&key, 0, || Ok((loads, 1)))), Some(of));
        assert_eq!(panic_of(|| cache.put_at(&key, shared, 1, 0)), Some(of));
        values.drops_panic.store(false, SeqCst);
        assert_eq!((values.live.load(SeqCst), cache.kept(), owned.kept()), (0, (0, 0), (0, 0)));
    }
    let value = values.thing(1);
    values.light();
    assert_eq!(panic_of(|| owned.land(1, &keys.thing(99), value, 1, 0)), Some("of the hash"));
    assert_eq!(values.live.load(SeqCst), 0);
}

#[test]
fn a_listener_and_the_drop_of_the_key_may_both_panic() {
    let keys = Arc::new(Fuse::default());
    let setup = Setup::of(2);
    let cache = Loading::<Thing, u64, ()>::open(&setup).unwrap().with_listener(|_| panic!("of the listener"));
    let all: Vec<_> = (0..6).map(|number| keys.thing(number)).collect();
    keys.light();
    let panics = all.iter().filter_map(|key| panic_of(|| cache.store_at(key, Arc::new(1), 1, 0)));
    assert_eq!(panics.collect::<Vec<_>>(), ["of the listener"; 4]);
    assert_eq!((keys.live.load(SeqCst), cache.kept()), (6 + 2, (2, 2)));
    assert_eq!(panic_of(|| drop(cache)), Some("of the listener"));
    assert_eq!(keys.live.load(SeqCst), 6);
    keys.drops_panic.store(false, SeqCst);
}

#[test]
fn a_listener_and_the_drop_of_an_expired_key_may_both_panic() {
    let keys = Arc::new(Fuse::default());
    let setup = Setup::of(4).after_write(Duration::from_millis(10));
    let cache = Loading::<Thing, u64, ()>::open(&setup).unwrap().with_listener(|_| panic!("of the listener"));
    let key = keys.thing(1);
    for asks in [
        |cache: &Loading<Thing, u64, ()>, key: &Thing, now| panic_of(|| cache.look_at(key, now)),
        |cache: &Loading<Thing, u64, ()>, key: &Thing, now| panic_of(|| cache.get_at(key, now, || Ok((2, 1)))),
    ] {
        let now = cache.numbers().latest;
        cache.store_at(&key, Arc::new(1), 1, now).unwrap();
        keys.light();
        assert_eq!(asks(&cache, &key, now + 10), Some("of the listener"));
        keys.drops_panic.store(false, SeqCst);
        assert_eq!((keys.live.load(SeqCst), cache.stats().expired), (1 + cache.kept().1 as u64, 1 + now / 10));
    }
    assert_eq!(panic_of(|| drop(cache)), Some("of the listener"));
}

// A key of one hash with all others. Its equality takes the first key out, once, and has all drops panic from then on.
#[derive(Clone)]
struct Taking(Thing);

static TAKEN: OnceLock<Loading<Taking, Thing, ()>> = OnceLock::new();
static TAKES: AtomicBool = AtomicBool::new(false);

impl Hash for Taking {
    fn hash<H: Hasher>(&self, state: &mut H) {
        state.write_u8(5);
    }
}

impl PartialEq for Taking {
    fn eq(&self, other: &Taking) -> bool {
        if TAKES.swap(false, SeqCst) {
            let first = if self.0.number == 1 { self } else { other };
            assert_eq!(TAKEN.get().unwrap().drop_key_at(first, 0).unwrap().len(), 1);
            self.0.fuse.light();
        }
        self.0.number == other.0.number
    }
}

impl Eq for Taking {}

#[test]
fn what_was_found_of_another_key_and_that_key_may_both_panic_as_they_are_dropped() {
    let fuse = Arc::new(Fuse::default());
    let cache = TAKEN.get_or_init(|| Loading::open(&Setup::of(4)).unwrap());
    let (first, second) = (Taking(fuse.thing(1)), Taking(fuse.thing(2)));
    for asks in [
        |second: &Taking| panic_of(|| TAKEN.get().unwrap().look_at(second, 0)),
        |second: &Taking| panic_of(|| TAKEN.get().unwrap().get_at(second, 0, || Err(()))),
    ] {
        cache.store_at(&first, Arc::new(fuse.thing(1)), 1, 0).unwrap();
        // The call itself has the last shares of the first key and its value.
        TAKES.store(true, SeqCst);
        assert_eq!(asks(&second), Some("of a drop"));
        fuse.drops_panic.store(false, SeqCst);
        assert_eq!((fuse.live.load(SeqCst), cache.kept(), cache.numbers().flights), (2, (0, 0), 0));
    }
}

// A key of one hash with all others. Its equality clears the cache, once, and may panic then. All drops panic from then on.
#[derive(Clone)]
struct Clearing(Thing);

static CLEARED: OnceLock<Loading<Clearing, Thing, ()>> = OnceLock::new();
static CLEARS: AtomicBool = AtomicBool::new(false);
static PANICS: AtomicBool = AtomicBool::new(false);

impl Hash for Clearing {
    fn hash<H: Hasher>(&self, state: &mut H) {
        state.write_u8(5);
    }
}

impl PartialEq for Clearing {
    fn eq(&self, other: &Clearing) -> bool {
        if CLEARS.swap(false, SeqCst) {
            assert_eq!(CLEARED.get().unwrap().clear_at(0).unwrap().len(), 2);
            self.0.fuse.light();
            assert!(!PANICS.load(SeqCst), "of the equality");
        }
        self.0.number == other.0.number
    }
}

impl Eq for Clearing {}

#[test]
fn keys_that_were_compared_and_the_value_to_be_stored_may_all_panic_as_they_are_dropped() {
    let fuse = Arc::new(Fuse::default());
    let cache = CLEARED.get_or_init(|| Loading::open(&Setup::of(4)).unwrap());
    let keys = [1, 2, 3].map(|number| Clearing(fuse.thing(number)));
    for (panics, of) in [(false, "of a drop"), (true, "of the equality")] {
        for asks in [
            |key: &Clearing, value| panic_of(|| CLEARED.get().unwrap().store_at(key, Arc::new(value), 1, 0)),
            |key: &Clearing, value| panic_of(|| CLEARED.get().unwrap().get_at(key, 0, || Ok((value, 1)))),
            |key: &Clearing, value| {
                drop(value);
                panic_of(|| CLEARED.get().unwrap().drop_key_at(key, 0))
            },
        ] {
            cache.store_at(&keys[0], Arc::new(fuse.thing(1)), 1, 0).unwrap();
            cache.store_at(&keys[1], Arc::new(fuse.thing(2)), 1, 0).unwrap();
            let value = fuse.thing(3);
            // The call itself has the last shares of both keys then.
            PANICS.store(panics, SeqCst);
            CLEARS.store(true, SeqCst);
            assert_eq!(asks(&keys[2], value), Some(of));
            fuse.drops_panic.store(false, SeqCst);
            assert_eq!((fuse.live.load(SeqCst), cache.kept(), cache.numbers().flights), (3, (0, 0), 0));
        }
    }
}

#[test]
fn a_call_that_is_made_during_a_panic_lets_that_one_go_on() {
    struct Puts<'a>(&'a Loading<u64, u64, ()>);
    impl Drop for Puts<'_> {
        fn drop(&mut self) {
            assert_eq!(self.0.put_at(&1, Arc::new(2), 1, 0).map(|left| left.len()), Ok(0));
            assert_eq!(*self.0.get_at(&2, 0, || Ok((3, 1))).unwrap(), 3);
        }
    }
    let cache = Loading::open(&Setup::of(4)).unwrap().with_listener(|_| panic!("of the listener"));
    cache.put_at(&1, Arc::new(1), 1, 0).unwrap();
    let got = panic_of(|| {
        let _puts = Puts(&cache);
        panic!("of the caller")
    });
    assert_eq!(
        (got, cache.look_at(&1, 0).unwrap(), cache.look_at(&2, 0).unwrap()),
        (Some("of the caller"), Some(Arc::new(2)), Some(Arc::new(3)))
    );
    assert_eq!(panic_of(|| drop(cache)), Some("of the listener"));
}
