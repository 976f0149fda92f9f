//! What a cache does if memory is refused to the library, and whether the library keeps any. Linux with glibc alone: the library's
//! `malloc` is this file's.
#![cfg(all(target_os = "linux", target_env = "gnu"))]
#[path = "common/random.rs"]
mod random;
#[path = "common/streams.rs"]
mod streams;
use rookdresser::{Adviser, Cache, Cause, Fault, Loading, OpenError, Reads, Setup, Tokens};
use std::alloc::{GlobalAlloc, Layout};
use std::cell::Cell;
use std::ffi::c_void;
use std::sync::{Arc, Mutex};
use std::time::Duration;
use streams::{passing, popular, OneSeed};

extern "C" {
    fn __libc_malloc(size: usize) -> *mut c_void;
    fn __libc_realloc(old: *mut c_void, size: usize) -> *mut c_void;
    fn __libc_memalign(alignment: usize, size: usize) -> *mut c_void;
    fn __libc_free(pointer: *mut c_void);
}

thread_local! {
    // So many allocations of this thread are granted, and then so many refused: another thread's take none of these.
    static GRANTS: Cell<u64> = const { Cell::new(0) };
    static REFUSES: Cell<u64> = const { Cell::new(0) };
    // How many of this thread's were refused.
    static REFUSED: Cell<u64> = const { Cell::new(0) };
    // How many blocks of this thread are in use.
    static LIVE: Cell<i64> = const { Cell::new(0) };
}

fn live(more: bool, less: bool) {
    LIVE.set(LIVE.get() + i64::from(more) - i64::from(less));
}

fn refuses() -> bool {
    if REFUSES.get() == 0 {
        return false;
    }
    if GRANTS.get() > 0 {
        GRANTS.set(GRANTS.get() - 1);
        return false;
    }
    REFUSES.set(REFUSES.get() - 1);
    REFUSED.set(REFUSED.get() + 1);
    true
}

fn refuse_after(granted: u64, refused: u64) {
    GRANTS.set(granted);
    REFUSES.set(refused);
}

fn refuse(refused: u64) {
    refuse_after(0, refused);
}

#[no_mangle]
extern "C" fn malloc(size: usize) -> *mut c_void {
    if refuses() {
        return std::ptr::null_mut();
    }
    live(true, false);
    unsafe { __libc_malloc(size) }
}

#[no_mangle]
extern "C" fn realloc(old: *mut c_void, size: usize) -> *mut c_void {
    if refuses() {
        return std::ptr::null_mut();
    }
    live(old.is_null(), false);
    unsafe { __libc_realloc(old, size) }
}

#[no_mangle]
extern "C" fn free(pointer: *mut c_void) {
    live(false, !pointer.is_null());
    unsafe { __libc_free(pointer) }
}

// Rust's own memory, which is never refused, nor counted.
struct Own;

unsafe impl GlobalAlloc for Own {
    unsafe fn alloc(&self, layout: Layout) -> *mut u8 {
        __libc_memalign(layout.align().max(16), layout.size()).cast()
    }

    unsafe fn dealloc(&self, pointer: *mut u8, _: Layout) {
        __libc_free(pointer.cast());
    }
}

#[global_allocator]
static OWN: Own = Own;

// Puts so many entries and drops the last of them. The others expire during a refresh of the first, and then there is no memory to
// store its value. Returns whether the landing asked for memory.
fn landing_is_refused(entries: u64) -> bool {
    let setup = Setup::of(64).after_write(Duration::from_millis(100)).refresh(Duration::from_millis(50));
    let told = Arc::new(Mutex::new(Vec::new()));
    let telling = told.clone();
    let cache = Loading::<u64, u64, ()>::open(&setup)
        .unwrap()
        .with_listener(move |left| telling.lock().unwrap().push((*left.key, *left.value, left.cause)));
    for key in 1..=entries {
        cache.put_at(&key, Arc::new(key), 1, 0).unwrap();
    }
    // A window with a free place asks for memory, and a full one doesn't.
    cache.drop_key_at(&entries, 0).unwrap();
    let before = REFUSED.get();
    let got = cache.get_at(&1, 60, || {
        cache.look_at(&100, 150).unwrap();
        refuse(u64::MAX);
        Ok((200, 1))
    });
    refuse(0);
    assert_eq!(got, Ok(Arc::new(200)));
    let refused = REFUSED.get() > before;
    assert_eq!(cache.stats().loose, u64::from(refused));
    let of_the_key: Vec<_> = told.lock().unwrap().iter().copied().filter(|told| told.0 == 1).collect();
    assert_eq!(of_the_key, [(1, 1, Cause::Expired)]);
    let numbers = cache.numbers();
    assert_eq!((cache.kept(), numbers.flights), ((numbers.entries as usize, numbers.entries as usize), 0));
    assert_eq!(cache.clear_at(150).unwrap().len() as u64, numbers.entries);
    assert_eq!(cache.kept(), (0, 0));
    refused
}

#[test]
fn a_landing_that_is_refused_memory_lets_go_of_what_expired() {
    // Which of the landings ask for memory is the library's affair.
    assert!((2..=20).filter(|&entries| landing_is_refused(entries)).count() > 0);
}

// Looks keys up, and loads those that aren't there, until the window holds so many entries.
fn until(
    cache: &Loading<u64, u64, (), OneSeed>,
    mut keys: impl Iterator<Item = u64>,
    fits: impl Fn(u32) -> bool,
) -> u32 {
    while !fits(cache.window()) {
        let key = keys.next().expect("the window moves");
        cache.get_with(&key, || key).unwrap();
    }
    cache.window()
}

#[test]
fn a_window_that_is_refused_memory_moves_later_and_no_call_fails() {
    let cache = Loading::<u64, u64, (), _>::sharded_with_hasher(1, &Setup::of(512), OneSeed::default())
        .unwrap()
        .with_reads(Reads::Exact);
    // The cache is full once the window is narrow, and then it begins to get wider.
    let narrow = until(&cache, popular(100_000, 512, 1), |window| window <= 5);
    let window = until(&cache, passing(100_000, 512, 1), |window| window > narrow + 4);
    let before = REFUSED.get();
    refuse(u64::MAX);
    // A miss takes no memory, but a slide does.
    (0..50).for_each(|key| assert_eq!(cache.look(&key), Ok(None), "nobody stored it"));
    refuse(0);
    assert!(REFUSED.get() >= before + 50);
    assert_eq!((cache.window(), cache.stats().refused), (window, [0; Fault::ALL.len()]));
    for wider in [4, 8, 12] {
        assert_eq!((cache.look(&0), cache.window()), (Ok(None), window + wider));
    }
}

#[test]
fn an_adviser_that_is_refused_memory_opens_later() {
    let live = LIVE.get();
    let (mut later, mut never) = (0, 0);
    // Each of the allocations of an open is refused in turn.
    for granted in 0.. {
        refuse_after(granted, 1);
        let opened = Loading::<u64, u64, ()>::sharded(1, &Setup::of(512));
        refuse(0);
        match opened.as_ref().map(|cache| cache.window()) {
            Err(error) => {
                assert_eq!(*error, OpenError::OutOfMemory);
                never += 1;
            }
            // A hundredth, until the adviser has opened; then 10 hundredths, in steps of four.
            Ok(5) => {
                let cache = opened.as_ref().unwrap();
                (0..64).for_each(|key| assert_eq!((cache.look(&key), cache.window()), (Ok(None), 5)));
                (1..60).for_each(|call| {
                    assert_eq!((cache.look(&call), cache.window()), (Ok(None), (5 + 4 * call as u32).min(51)))
                });
                later += 1;
            }
            Ok(window) => {
                // Nothing was refused.
                assert_eq!(window, 51);
                break;
            }
        }
        drop(opened);
        assert_eq!(LIVE.get(), live);
    }
    assert!(later > 5 && never > 5, "{later}, {never}");
    refuse(1);
    assert_eq!(Adviser::open(512).err(), Some(OpenError::OutOfMemory));
    refuse(0);
    assert_eq!(LIVE.get(), live);
}

#[test]
fn an_adviser_that_is_refused_memory_says_so_and_goes_on() {
    let mut adviser = Adviser::open(512).unwrap();
    let keys: Vec<_> = passing(20_000, 512, 1).collect();
    refuse(u64::MAX);
    assert_eq!(adviser.saw(&keys), Err(Fault::OutOfMemory));
    refuse(0);
    assert_eq!((adviser.wanted(), adviser.saw(&keys), adviser.wanted()), (51, Ok(()), 512));
}

#[test]
fn all_that_the_library_took_is_given_back() {
    let live = LIVE.get();
    for count in [0, 1, 100, 3000, 40_000] {
        let loading = Loading::<u64, u64, ()>::sharded(2, &Setup::of(300)).unwrap();
        let mut cache = Cache::<u64, u64>::open(&Setup::of(600)).unwrap();
        let tokens = Tokens::<u64>::open(&Setup::of(600)).unwrap();
        let mut adviser = Adviser::open(600).unwrap();
        for key in passing(count, 600, 1).chain(popular(count, 600, 1)) {
            loading.get_with(&key, || key).unwrap();
            if cache.look(&key, 0).unwrap().0.is_none() {
                cache.put(&key, key, 1, 0).unwrap();
            }
            adviser.saw(&[key]).unwrap();
        }
        assert!(LIVE.get() > live);
        // In whichever order.
        if count % 2 == 0 {
            drop((loading, cache, tokens, adviser));
        } else {
            drop((adviser, tokens, cache, loading));
        }
        assert_eq!(LIVE.get(), live);
    }
}

#[test]
fn calls_whose_memory_is_refused_at_random_leave_a_whole_cache_whose_window_moves() {
    for shards in [1, 2] {
        let cache = Loading::<u64, u64, (), _>::sharded_with_hasher(
            shards,
            &Setup::of(600 / shards as u32),
            OneSeed::default(),
        )
        .unwrap();
        let (mut random, mut refused, mut widest, mut narrowest) = (random::Random::of(3), 0, 0, 600);
        for key in passing(60_000, 600, 1).chain(popular(60_000, 600, 1)) {
            refuse(if random.below(3) == 0 { 1 + random.below(8) } else { 0 });
            refused += u64::from(cache.get_with(&key, || key).is_err());
            refuse(0);
            let window = cache.window();
            assert!((1..=600).contains(&window));
            (widest, narrowest) = (widest.max(window), narrowest.min(window));
        }
        let (stats, numbers) = (cache.stats(), cache.numbers());
        assert_eq!((stats.hits, stats.misses), (numbers.hits, numbers.misses));
        assert_eq!(cache.kept(), (numbers.entries as usize, numbers.entries as usize));
        assert!(refused > 0 && widest == 600 && narrowest <= 60, "{refused}, {widest}, {narrowest}");
    }
}

#[test]
fn hits_of_which_the_library_is_told_late_are_counted_though_it_refuses_some() {
    let cache = Loading::<u64, u64, ()>::sharded(1, &Setup::of(100)).unwrap();
    (0..100).for_each(|key| cache.store(&key, key, 1).unwrap());
    // A hit of an entry in probation takes memory.
    for round in 0..20 {
        for key in 0..100 {
            refuse(if round > 3 { u64::MAX } else { 0 });
            let found = cache.look(&key);
            refuse(0);
            assert!(found == Ok(Some(key.into())) || found == Err(Fault::OutOfMemory));
        }
    }
    let (stats, numbers) = (cache.stats(), cache.numbers());
    assert_eq!((stats.hits, stats.misses, stats.hits + stats.misses), (numbers.hits, numbers.misses, numbers.lookups));
}
