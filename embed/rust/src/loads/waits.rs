//! Which loads wait for which, so that a circle of them is found.
//!
//! Each load has a number. While a thread runs a load's loader, or polls its future, that load is the thread's own one. It then waits
//! for each load that the thread joins or begins meanwhile. A caller that has no load of its own is in no circle, and takes no lock here.
use crate::lock::locked;
use std::cell::Cell;
use std::collections::BTreeMap;
use std::sync::atomic::{AtomicBool, AtomicU64, Ordering};
use std::sync::{Arc, Mutex};

thread_local! {
    // The load that this thread makes now, the innermost of several; 0 is none.
    static OWN: Cell<u64> = const { Cell::new(0) };
    static NEXT: Cell<u64> = const { Cell::new(0) };
}

/// A number that nothing else in this process has, and that isn't 0.
#[inline]
pub(crate) fn new_number() -> u64 {
    // Threads take this many together, so that they seldom write the same count.
    const TOGETHER: u64 = 1 << 20;
    static TAKEN: AtomicU64 = AtomicU64::new(0);
    let mut number = NEXT.get();
    if number % TOGETHER == 0 {
        number = TAKEN.fetch_add(TOGETHER, Ordering::Relaxed) + 1;
    }
    NEXT.set(number + 1);
    number
}

/// Makes a call during which this thread has no load of its own.
pub(crate) fn outside<T>(call: impl FnOnce() -> T) -> T {
    struct Restores(u64);
    impl Drop for Restores {
        fn drop(&mut self) {
            OWN.set(self.0);
        }
    }
    let _restores = Restores(OWN.replace(0));
    call()
}

/// The wait would never end: the load waits for the one that would wait.
pub(crate) struct WaitsForItself;

// Who waits, by the load and by the number of its wait, and for which load. A hit never takes this lock.
static WAITING: Mutex<BTreeMap<(u64, u64), Awaited>> = Mutex::new(BTreeMap::new());

struct Awaited {
    load: u64,
    // Set before those who wait go on. A load that is made within another has none, as it ends its wait by itself.
    is_over: Option<Arc<AtomicBool>>,
}

// Whether a load waits for another one, perhaps by others between.
fn waits_for(waiting: &BTreeMap<(u64, u64), Awaited>, load: u64, other: u64) -> bool {
    let (mut reached, mut at) = (vec![load], 0);
    while at < reached.len() {
        if reached[at] == other {
            return true;
        }
        for (_, awaited) in waiting.range((reached[at], 0)..=(reached[at], u64::MAX)) {
            let is_over = awaited.is_over.as_ref().is_some_and(|is_over| is_over.load(Ordering::SeqCst));
            if !is_over && !reached.contains(&awaited.load) {
                reached.push(awaited.load);
            }
        }
        at += 1;
    }
    false
}

/// A wait for a load, by the load of whoever waits, if it has one.
#[derive(Default)]
pub(crate) struct Waiting {
    number: u64,
    by: u64,
}

impl Waiting {
    /// Waits for the load from now on, by this thread's own load. Whoever closes a circle is refused, or sees one that was closed since.
    pub(crate) fn go_on(&mut self, load: u64, is_over: &Arc<AtomicBool>) -> Result<(), WaitsForItself> {
        let own = OWN.get();
        if own != self.by {
            self.end();
        }
        if own == 0 {
            return Ok(());
        }
        let mut waiting = locked(&WAITING);
        if !is_over.load(Ordering::SeqCst) && waits_for(&waiting, load, own) {
            return Err(WaitsForItself);
        }
        if self.by == 0 {
            *self = Waiting { number: new_number(), by: own };
            waiting.insert((own, self.number), Awaited { load, is_over: Some(is_over.clone()) });
        }
        Ok(())
    }

    fn end(&mut self) {
        if self.by != 0 {
            locked(&WAITING).remove(&(self.by, self.number));
            self.by = 0;
        }
    }
}

impl Drop for Waiting {
    fn drop(&mut self) {
        self.end();
    }
}

/// A load that is made. The load of the thread that makes it waits for it.
pub(crate) struct Making {
    number: u64,
    // The load within which it is made, if there is one, until it pauses.
    within: u64,
    is_on: bool,
}

impl Making {
    /// Makes the load of this number this thread's own one.
    #[inline]
    pub(crate) fn begin(number: u64) -> Making {
        let mut making = Making { number, within: 0, is_on: false };
        making.go_on();
        making
    }

    /// This thread makes it again.
    #[inline]
    pub(crate) fn go_on(&mut self) {
        let within = OWN.replace(self.number);
        self.is_on = true;
        if within != self.within {
            self.move_within(within);
        }
    }

    #[cold]
    fn move_within(&mut self, within: u64) {
        let mut waiting = locked(&WAITING);
        waiting.remove(&(self.within, self.number));
        self.within = within;
        if within != 0 {
            waiting.insert((within, self.number), Awaited { load: self.number, is_over: None });
        }
    }

    /// This thread makes it no longer; another one may go on. The load within which it was made still waits for it.
    #[inline]
    pub(crate) fn pause(&mut self) {
        if self.is_on {
            self.is_on = false;
            OWN.set(self.within);
        }
    }

    /// Makes a call that is part of a paused load.
    pub(crate) fn during<T>(&mut self, call: impl FnOnce() -> T) -> T {
        struct Pauses<'a>(&'a mut Making);
        impl Drop for Pauses<'_> {
            fn drop(&mut self) {
                self.0.pause();
            }
        }
        self.go_on();
        let _pauses = Pauses(self);
        call()
    }

    /// The load is over.
    #[inline]
    pub(crate) fn end(&mut self) {
        self.pause();
        if self.within != 0 {
            self.move_within(0);
        }
    }
}
