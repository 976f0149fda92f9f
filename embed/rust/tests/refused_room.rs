//! What a cache does if room for its table is refused to it. The test's allocator refuses a large block, as a machine that is short of
//! memory does first; small ones are never refused, since std would end the process.
#[path = "common/whole.rs"]
mod whole;
use rookdresser::{Cache, Fault, Found, GetError, Loading, Setup};
use std::alloc::{GlobalAlloc, Layout, System};
use std::cell::Cell;
use std::hash::{BuildHasher, Hasher, RandomState};
use whole::holds_exactly;

thread_local! {
    // So many large blocks are granted to this thread, and then none.
    static GRANTS: Cell<u64> = const { Cell::new(u64::MAX) };
}

const LARGE: usize = 256;
const ENTRIES: u32 = 1000;

struct Limited;

// SAFETY: each block is the system's, and a refusal is a null pointer.
unsafe impl GlobalAlloc for Limited {
    unsafe fn alloc(&self, layout: Layout) -> *mut u8 {
        if layout.size() >= LARGE {
            let Some(left) = GRANTS.get().checked_sub(1) else { return std::ptr::null_mut() };
            GRANTS.set(left);
        }
        System.alloc(layout)
    }

    unsafe fn dealloc(&self, block: *mut u8, layout: Layout) {
        System.dealloc(block, layout);
    }
}

#[global_allocator]
static LIMITED: Limited = Limited;

// All keys have one hash.
#[derive(Clone, Copy)]
struct One;

impl Hasher for One {
    fn write(&mut self, _: &[u8]) {}

    fn finish(&self) -> u64 {
        7
    }
}

impl BuildHasher for One {
    type Hasher = One;

    fn build_hasher(&self) -> One {
        One
    }
}

// Stores keys until room is refused. Each call of a further key is then refused, and nothing has changed; with room, all succeed.
// Returns whether room was refused at all.
fn room_is_refused<S: BuildHasher>(granted: u64, hasher: S) -> bool {
    let cache = Loading::<u64, u64, (), S>::sharded_with_hasher(1, &Setup::of(ENTRIES), hasher).unwrap();
    GRANTS.set(granted);
    let stored = (0..u64::from(ENTRIES)).find(|key| cache.store(key, *key, 1).is_err());
    if let Some(new) = stored {
        assert_eq!(cache.store(&new, 0, 1), Err(Fault::OutOfMemory));
        assert_eq!(cache.get(&new, || unreachable!("no load begins")), Err(GetError::Refused(Fault::OutOfMemory)));
        assert_eq!(cache.get_or_insert(&new, 0, 1), Err(Fault::OutOfMemory));
        assert_eq!(cache.stats().refused[Fault::OutOfMemory.place()], 4);
        holds_exactly(&cache);
        assert_eq!(cache.numbers().entries, new);
        // Keys that are there need no room, and one that leaves gives its own to another.
        assert!((0..new).all(|key| cache.store(&key, key, 1).is_ok()));
        if new > 0 {
            assert_eq!(cache.drop_key(&0).unwrap().len(), 1);
            assert_eq!((cache.store(&0, 0, 1), cache.numbers().entries), (Ok(()), new));
        }
    }
    GRANTS.set(u64::MAX);
    assert!((0..u64::from(ENTRIES)).all(|key| cache.store(&key, key, 1).is_ok()));
    assert!((0..u64::from(ENTRIES)).all(|key| cache.look(&key).unwrap().is_some_and(|value| *value == key)));
    cache.clear().unwrap();
    holds_exactly(&cache);
    stored.is_some()
}

#[test]
fn a_call_whose_table_is_refused_room_is_refused_and_changes_nothing() {
    let refusals = (0..).take_while(|&granted| room_is_refused(granted, RandomState::new())).count();
    assert!(refusals > 10, "{refusals} blocks of the table were refused");
}

#[test]
fn a_call_whose_numbers_of_moved_keys_are_refused_room_is_refused_and_changes_nothing() {
    let refusals = (0..).take_while(|&granted| room_is_refused(granted, One)).count();
    assert!(refusals > 15, "{refusals} blocks of the table were refused");
}

#[test]
fn a_cache_of_one_owner_refuses_a_key_that_it_has_no_room_for() {
    let mut cache = Cache::<u64, u64>::open(&Setup::of(ENTRIES)).unwrap();
    GRANTS.set(3);
    let new = (0..).find(|key| cache.put(key, *key, 1, 0).is_err()).unwrap();
    assert_eq!(cache.put(&new, new, 1, 0), Err(Fault::OutOfMemory));
    assert_eq!(cache.seek(&new, 0), Err(Fault::OutOfMemory));
    assert_eq!(
        (cache.numbers().entries, cache.numbers().flights, cache.kept()),
        (new, 0, (new as usize, new as usize))
    );
    GRANTS.set(u64::MAX);
    assert!(matches!(cache.seek(&new, 0).unwrap().0, Found::Lead(_)));
}
