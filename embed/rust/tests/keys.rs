//! What a key's hash, equality, clone and drop may do. embed/CALLBACKS.md names these tests.
mod common;
#[path = "common/whole.rs"]
mod whole;
use common::within_a_minute;
use rookdresser::{Fault, Loading, Setup};
use std::hash::{Hash, Hasher};
use std::sync::atomic::{AtomicU64, Ordering};
use std::sync::{Arc, Barrier, OnceLock};
use std::time::Duration;
use whole::{holds_exactly, panics, Down, SETUP};

// A key whose hash, equality and clone do as they are told. All of them have one hash.
#[derive(Debug)]
struct Odd(u64);

static ODD: OnceLock<Loading<Odd, u64, Down>> = OnceLock::new();
static IN_EQ: AtomicU64 = AtomicU64::new(0);

impl Hash for Odd {
    fn hash<H: Hasher>(&self, state: &mut H) {
        assert_ne!(self.0, 99, "of the hash");
        state.write_u8(5);
    }
}

impl PartialEq for Odd {
    fn eq(&self, other: &Odd) -> bool {
        assert!(self.0 != 98 && other.0 != 98, "of the equality");
        // An equality that asks the cache for its own key, once.
        if IN_EQ.swap(0, Ordering::SeqCst) == 1 {
            ODD.get().unwrap().look_at(self, 0).unwrap();
            ODD.get().unwrap().put_at(&Odd(50), Arc::new(50), 1, 0).unwrap();
        }
        self.0 == other.0
    }
}

impl Eq for Odd {}

impl Clone for Odd {
    fn clone(&self) -> Odd {
        // A clone that asks the cache.
        ODD.get().unwrap().look_at(&Odd(1), 0).unwrap();
        assert_ne!(self.0, 97, "of the clone");
        Odd(self.0)
    }
}

#[test]
fn a_key_s_hash_equality_and_clone_may_panic_and_use_the_cache() {
    within_a_minute(|| {
        let cache = ODD.get_or_init(|| Loading::open(&SETUP).unwrap());
        for key in 0..4 {
            assert_eq!(cache.get_at(&Odd(key), 0, || Ok((key, 1))), Ok(Arc::new(key)));
        }
        for bad in [99, 98, 97] {
            assert!(panics(|| drop(cache.get_at(&Odd(bad), 0, || Ok((bad, 1))))));
            assert!(panics(|| drop(cache.put_at(&Odd(bad), Arc::new(bad), 1, 0))));
            holds_exactly(cache);
        }
        for key in 0..4 {
            IN_EQ.store(1, Ordering::SeqCst);
            assert_eq!(cache.get_at(&Odd(key), 0, || Ok((100, 1))), Ok(Arc::new(key)));
            assert_eq!(cache.look_at(&Odd(key), 0), Ok(Some(Arc::new(key))));
        }
        assert_eq!(cache.drop_key_at(&Odd(2), 0).unwrap().len(), 1);
        assert_eq!((cache.look_at(&Odd(2), 0), cache.look_at(&Odd(3), 0)), (Ok(None), Ok(Some(Arc::new(3)))));
        assert_eq!(cache.look_at(&Odd(50), 0), Ok(Some(Arc::new(50))));
        holds_exactly(cache);
    });
}

#[test]
fn a_key_alone_of_its_hash_is_not_taken_for_another() {
    ODD.get_or_init(|| Loading::open(&SETUP).unwrap());
    let cache = Loading::<Odd, u64, Down>::open(&SETUP.refresh(Duration::from_millis(10))).unwrap();
    cache.put_at(&Odd(1), Arc::new(1), 1, 0).unwrap();
    // The one row of the hash is tried first, and another key's due entry then stays as it is.
    assert_eq!(cache.get_at(&Odd(2), 20, || Ok((2, 1))), Ok(Arc::new(2)));
    assert_eq!(
        (cache.look_at(&Odd(1), 20), cache.look_at(&Odd(2), 20)),
        (Ok(Some(Arc::new(1))), Ok(Some(Arc::new(2))))
    );
    assert_eq!(cache.look_at(&Odd(3), 20), Ok(None));
    holds_exactly(&cache);
}

#[test]
fn a_look_up_of_another_key_of_the_hash_is_no_use() {
    ODD.get_or_init(|| Loading::open(&SETUP).unwrap());
    let cache = Loading::<Odd, u64, Down>::open(&SETUP.after_access(Duration::from_millis(10))).unwrap();
    cache.put_at(&Odd(1), Arc::new(1), 1, 0).unwrap();
    for now in 1..10 {
        assert_eq!(cache.look_at(&Odd(2), now), Ok(None));
        assert!(cache.get_at(&Odd(3), now, || Err(Down)).is_err());
    }
    assert_eq!((cache.stats().hits, cache.look_at(&Odd(1), 10)), (0, Ok(None)));
    // A use of its own keeps an entry.
    cache.put_at(&Odd(1), Arc::new(2), 1, 10).unwrap();
    assert_eq!(cache.look_at(&Odd(1), 19), Ok(Some(Arc::new(2))));
    assert_eq!((cache.look_at(&Odd(1), 28), cache.look_at(&Odd(1), 38)), (Ok(Some(Arc::new(2))), Ok(None)));
    holds_exactly(&cache);
}

// A text that is compared by code of the caller's, which asks the cache.
#[repr(transparent)]
struct Asking(str);

static TEXTS: OnceLock<Loading<String, u64, Down>> = OnceLock::new();

impl Asking {
    fn of(text: &str) -> &Asking {
        // SAFETY: the one is a transparent wrapper of the other.
        unsafe { &*(std::ptr::from_ref(text) as *const Asking) }
    }
}

impl std::borrow::Borrow<Asking> for String {
    fn borrow(&self) -> &Asking {
        Asking::of(self)
    }
}

impl ToOwned for Asking {
    type Owned = String;

    fn to_owned(&self) -> String {
        assert_eq!(TEXTS.get().unwrap().look_at("b", 0), Ok(None));
        self.0.to_owned()
    }
}

impl Hash for Asking {
    fn hash<H: Hasher>(&self, state: &mut H) {
        self.0.hash(state);
    }
}

impl PartialEq for Asking {
    fn eq(&self, other: &Asking) -> bool {
        assert_eq!(TEXTS.get().unwrap().look_at("b", 0), Ok(None));
        self.0 == other.0
    }
}

impl Eq for Asking {}

#[test]
fn a_text_that_is_asked_for_by_a_type_of_the_caller_s_is_compared_with_no_lock_held() {
    within_a_minute(|| {
        let cache = TEXTS.get_or_init(|| Loading::open(&SETUP).unwrap());
        let key = Asking::of("a");
        assert_eq!(cache.get_at(key, 0, || Ok((1, 1))), Ok(Arc::new(1)));
        assert_eq!((cache.look_at(key, 0), cache.look_at("a", 0)), (Ok(Some(Arc::new(1))), Ok(Some(Arc::new(1)))));
        assert_eq!(cache.put_at(key, Arc::new(2), 1, 0).unwrap().len(), 1);
        assert_eq!(cache.drop_key_at(key, 0).unwrap().len(), 1);
        holds_exactly(cache);
    });
}

// A key that blocks once: as it is hashed, compared or cloned.
#[derive(Debug)]
struct Blocks {
    number: u64,
    at: &'static str,
}

static BLOCKS: OnceLock<(Barrier, Barrier)> = OnceLock::new();
static IS_ARMED: AtomicU64 = AtomicU64::new(0);

impl Blocks {
    fn at(&self, at: &str) {
        if self.at == at && IS_ARMED.swap(0, Ordering::SeqCst) == 1 {
            let (begun, end) = BLOCKS.get().unwrap();
            begun.wait();
            end.wait();
        }
    }
}

impl Hash for Blocks {
    fn hash<H: Hasher>(&self, state: &mut H) {
        self.at("hash");
        state.write_u8(5);
    }
}

impl PartialEq for Blocks {
    fn eq(&self, other: &Blocks) -> bool {
        self.at("equality");
        other.at("equality");
        self.number == other.number
    }
}

impl Eq for Blocks {}

impl Clone for Blocks {
    fn clone(&self) -> Blocks {
        self.at("clone");
        Blocks { number: self.number, at: self.at }
    }
}

#[test]
fn a_key_s_hash_equality_and_clone_that_block_stop_no_other_call() {
    within_a_minute(|| {
        let (begun, end) = BLOCKS.get_or_init(|| (Barrier::new(2), Barrier::new(2)));
        for at in ["hash", "equality", "clone"] {
            let cache = Loading::<Blocks, u64, Down>::open(&SETUP).unwrap();
            let key = |number, at| Blocks { number, at };
            cache.put_at(&key(1, ""), Arc::new(1), 1, 0).unwrap();
            IS_ARMED.store(1, Ordering::SeqCst);
            std::thread::scope(|s| {
                let blocked = s.spawn(|| cache.get_at(&key(2, at), 0, || Ok((2, 1))));
                begun.wait();
                assert_eq!(cache.look_at(&key(1, ""), 0), Ok(Some(Arc::new(1))));
                assert_eq!(cache.get_at(&key(3, ""), 0, || Ok((3, 1))), Ok(Arc::new(3)));
                end.wait();
                assert_eq!(blocked.join().unwrap(), Ok(Arc::new(2)));
            });
            holds_exactly(&cache);
            assert_eq!(cache.numbers().entries, 3);
        }
    });
}

// A key and a value whose drops look into the cache, and block if they are told to.
#[derive(Clone, Debug, PartialEq, Eq, Hash)]
struct Held(u64);

static HELD: OnceLock<Loading<Held, Held, Down>> = OnceLock::new();
static HOLDS: OnceLock<(Barrier, Barrier)> = OnceLock::new();
static DROPPED: AtomicU64 = AtomicU64::new(0);
static HOLD_NEXT: AtomicU64 = AtomicU64::new(0);

impl std::borrow::Borrow<u64> for Held {
    fn borrow(&self) -> &u64 {
        &self.0
    }
}

impl Drop for Held {
    fn drop(&mut self) {
        HELD.get().unwrap().look_at(&(self.0 + 1000), 0).unwrap();
        DROPPED.fetch_add(1, Ordering::SeqCst);
        if self.0 == 7 && HOLD_NEXT.swap(0, Ordering::SeqCst) == 1 {
            let (begun, end) = HOLDS.get().unwrap();
            begun.wait();
            end.wait();
        }
    }
}

#[test]
fn drops_of_a_key_and_a_value_may_use_the_cache_and_block() {
    within_a_minute(|| {
        let cache = HELD.get_or_init(|| Loading::open(&Setup { entries: 4, ..SETUP }).unwrap());
        let (begun, end) = HOLDS.get_or_init(|| (Barrier::new(2), Barrier::new(2)));
        for number in 0..20 {
            assert!(cache.get_at(&Held(number % 9), 0, || Ok((Held(number), 1))).is_ok());
            assert!(cache.get_at(&Held(number + 100), 0, || Err(Down)).is_err());
            drop(cache.put_at(&Held(number % 5), Arc::new(Held(number)), 1, 0).unwrap());
            drop(cache.drop_key_at(&(number % 3), 0).unwrap());
            assert_eq!(cache.put_at(&Held(number), Arc::new(Held(number)), 2000, 0), Err(Fault::TooHeavy));
        }
        drop(cache.clear_at(0).unwrap());
        holds_exactly(cache);
        // One of the key, one of the value.
        for key in [7, 8] {
            cache.put_at(&Held(key), Arc::new(Held(15 - key)), 1, 0).unwrap();
            HOLD_NEXT.store(1, Ordering::SeqCst);
            std::thread::scope(|s| {
                let blocked = s.spawn(|| drop(cache.clear_at(0).unwrap()));
                begun.wait();
                assert!(cache.get_at(&Held(1), 0, || Ok((Held(1), 1))).is_ok());
                assert_eq!(cache.look_at(&1, 0).unwrap().map(|held| held.0), Some(1));
                end.wait();
                blocked.join().unwrap();
            });
        }
        assert!(DROPPED.load(Ordering::SeqCst) > 100);
        holds_exactly(cache);
    });
}

// A key of one hash with all others, whose equality takes what it is compared with out of the cache.
#[derive(Clone)]
struct Takes(u64);

static TAKEN: OnceLock<Loading<Takes, Looks, Down>> = OnceLock::new();
static TAKES: AtomicU64 = AtomicU64::new(0);
static LOOKED: AtomicU64 = AtomicU64::new(0);

impl Hash for Takes {
    fn hash<H: Hasher>(&self, state: &mut H) {
        state.write_u8(5);
    }
}

impl PartialEq for Takes {
    fn eq(&self, other: &Takes) -> bool {
        if TAKES.swap(0, Ordering::SeqCst) == 1 {
            assert_eq!(TAKEN.get().unwrap().drop_key_at(&Takes(1), 0).unwrap().len(), 1);
        }
        self.0 == other.0
    }
}

impl Eq for Takes {}

// A value whose drop looks into the cache that it was in.
struct Looks;

impl Drop for Looks {
    fn drop(&mut self) {
        assert!(TAKEN.get().unwrap().look_at(&Takes(1), 0).unwrap().is_none());
        LOOKED.fetch_add(1, Ordering::SeqCst);
    }
}

#[test]
fn what_was_looked_up_of_another_key_of_the_hash_is_dropped_with_no_lock_held() {
    within_a_minute(|| {
        let cache = TAKEN.get_or_init(|| Loading::open(&SETUP).unwrap());
        // The row of the hash is the first key's. Its last share is the one that the call itself was given.
        cache.put_at(&Takes(1), Arc::new(Looks), 1, 0).unwrap();
        TAKES.store(1, Ordering::SeqCst);
        assert!(cache.look_at(&Takes(2), 0).unwrap().is_none());
        cache.put_at(&Takes(1), Arc::new(Looks), 1, 0).unwrap();
        TAKES.store(1, Ordering::SeqCst);
        assert!(cache.get_at(&Takes(2), 0, || Err(Down)).is_err());
        assert_eq!(LOOKED.load(Ordering::SeqCst), 2);
        holds_exactly(cache);
    });
}

// A key of one hash with all others, whose equality puts a third key in the place of the first, once.
#[derive(Clone, Debug)]
struct Swaps(u64);

static SWAPPED: OnceLock<Loading<Swaps, u64, Down>> = OnceLock::new();
static SWAPS: AtomicU64 = AtomicU64::new(0);

impl Hash for Swaps {
    fn hash<H: Hasher>(&self, state: &mut H) {
        state.write_u8(5);
    }
}

impl PartialEq for Swaps {
    fn eq(&self, other: &Swaps) -> bool {
        if SWAPS.swap(0, Ordering::SeqCst) == 1 {
            assert_eq!(SWAPPED.get().unwrap().drop_key_at(&Swaps(1), 0).unwrap().len(), 1);
            SWAPPED.get().unwrap().store_at(&Swaps(3), Arc::new(30), 1, 0).unwrap();
        }
        self.0 == other.0
    }
}

impl Eq for Swaps {}

#[test]
fn a_key_that_takes_the_place_of_one_that_was_compared_is_not_taken_for_it() {
    within_a_minute(|| {
        let cache = SWAPPED.get_or_init(|| Loading::open(&SETUP).unwrap());
        for (turn, put) in [(0, false), (1, true)] {
            cache.store_at(&Swaps(2), Arc::new(20), 1, 0).unwrap();
            cache.store_at(&Swaps(1), Arc::new(10), 1, 0).unwrap();
            SWAPS.store(1, Ordering::SeqCst);
            if put {
                assert_eq!(cache.put_at(&Swaps(1), Arc::new(11), 1, 0), Ok(vec![]));
            } else {
                assert_eq!(cache.look_at(&Swaps(1), 0), Ok(None));
            }
            assert_eq!(cache.look_at(&Swaps(1), 0), Ok((turn == 1).then(|| Arc::new(11))));
            assert_eq!(cache.look_at(&Swaps(3), 0), Ok(Some(Arc::new(30))));
            assert_eq!(cache.clear_at(0).unwrap().len() as u64, 2 + turn);
        }
    });
}

// A key whose hash and equality say something else each time.
#[derive(Clone, Debug)]
struct Fickle;

static ASKED_FICKLE: AtomicU64 = AtomicU64::new(0);

fn fickle(limit: u64) -> u64 {
    (ASKED_FICKLE.fetch_add(1, Ordering::SeqCst).wrapping_mul(0x9E37_79B9_7F4A_7C15) >> 33) % limit
}

impl Hash for Fickle {
    fn hash<H: Hasher>(&self, state: &mut H) {
        state.write_u64(fickle(4));
    }
}

impl PartialEq for Fickle {
    fn eq(&self, _: &Fickle) -> bool {
        fickle(3) == 0
    }
}

impl Eq for Fickle {}

#[test]
fn a_key_s_hash_and_equality_that_contradict_themselves_leak_nothing() {
    within_a_minute(|| {
        // Each value is a share of one thing.
        let thing = Arc::new(());
        let cache = Loading::<Fickle, Arc<()>, Down>::open(
            &SETUP.after_write(Duration::from_millis(40)).refresh(Duration::from_millis(15)),
        )
        .unwrap();
        for now in 0..3000 {
            let key = Fickle;
            match now % 5 {
                0 => drop(cache.put_at(&key, Arc::new(thing.clone()), 1, now).unwrap()),
                1 => drop(cache.look_at(&key, now).unwrap()),
                2 => drop(cache.drop_key_at(&key, now).unwrap()),
                3 => drop(cache.get_at(&key, now, || Err(Down))),
                _ => assert!(cache.get_at(&key, now, || Ok((thing.clone(), 1))).is_ok()),
            }
            holds_exactly(&cache);
            assert_eq!(Arc::strong_count(&thing) as u64 - 1, cache.numbers().entries);
        }
        drop(cache);
        assert_eq!(Arc::strong_count(&thing), 1);
    });
}
