//! Many calls leave no memory behind, of this crate's. The library's own is counted by the tests of embed/c.
#[path = "common/random.rs"]
mod random;
use random::Random;
use rookdresser::{Loading, Setup};
use std::alloc::{GlobalAlloc, Layout, System};
use std::hash::{Hash, Hasher};
use std::sync::atomic::{AtomicI64, Ordering::Relaxed};
use std::sync::Arc;
use std::time::Duration;

static LIVE: AtomicI64 = AtomicI64::new(0);

struct Counted;

// SAFETY: it is the system's allocator, and beside that counts.
unsafe impl GlobalAlloc for Counted {
    unsafe fn alloc(&self, layout: Layout) -> *mut u8 {
        LIVE.fetch_add(layout.size() as i64, Relaxed);
        System.alloc(layout)
    }

    unsafe fn dealloc(&self, pointer: *mut u8, layout: Layout) {
        LIVE.fetch_sub(layout.size() as i64, Relaxed);
        System.dealloc(pointer, layout)
    }
}

#[global_allocator]
static COUNTED: Counted = Counted;

// A key that isn't of the standard library's, of which ten have one hash.
#[derive(Clone, PartialEq, Eq)]
struct Coarse(u64);

impl Hash for Coarse {
    fn hash<H: Hasher>(&self, state: &mut H) {
        state.write_u64(self.0 % 30);
    }
}

// Less than a byte of each six calls.
const SOME: i64 = 16_384;

type Cache<K> = Loading<K, Vec<u8>, Vec<u8>>;

fn calls<K: Hash + Eq + Clone>(cache: &Cache<K>, random: &mut Random, from: u64, key_of: fn(u64) -> K) {
    for now in from..from + 100_000 {
        let key = key_of(random.below(300));
        match random.below(20) {
            0 => drop(cache.drop_key_at(&key, now).unwrap()),
            1 => drop(cache.put_at(&key, Arc::new(vec![0; 16]), 1, now).unwrap()),
            2 => cache.store_at(&key, Arc::new(vec![0; 16]), 1, now).unwrap(),
            3 => drop(cache.look_at(&key, now).unwrap()),
            4 => drop(cache.get_at(&key, now, || Err(vec![0; 16]))),
            5 => drop(cache.get_at(&key, now, || {
                cache.drop_key_at(&key, now).unwrap();
                Ok((vec![0; 16], 1))
            })),
            _ => drop(cache.get_at(&key, now, || Ok((vec![0; 16], 1)))),
        }
    }
}

fn leave_no_memory_behind<K: Hash + Eq + Clone>(key_of: fn(u64) -> K) {
    let setup = Setup::of(100).after_write(Duration::from_millis(2000)).refresh(Duration::from_millis(500));
    let before = LIVE.load(Relaxed);
    let cache = Cache::sharded(2, &setup).unwrap();
    let mut random = Random::of(1);
    calls(&cache, &mut random, 0, key_of);
    drop(cache.clear_at(0).unwrap());
    let once = LIVE.load(Relaxed);
    calls(&cache, &mut random, 100_000, key_of);
    drop(cache.clear_at(0).unwrap());
    // The tables keep their room, which may double once more. What the test's other thread needs is counted, too.
    let once_more = LIVE.load(Relaxed);
    assert!(once_more - once < SOME && cache.kept() == (0, 0), "{} bytes more", once_more - once);
    drop(cache);
    assert!(LIVE.load(Relaxed) - before < SOME);
}

#[test]
fn many_calls_leave_no_memory_behind() {
    leave_no_memory_behind(|number| format!("key {number}"));
    leave_no_memory_behind(Coarse);
}
