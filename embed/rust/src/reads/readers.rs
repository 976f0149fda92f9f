//! Who reads without a lock, and how a thread waits until they are gone.
//!
//! ```text
//! a reader                                a thread that takes something out
//!   stripe: 2n -> 2n + 1                    a link or a value: old -> new
//!   reads links and values                  each stripe that is odd: waits until it changes
//!   stripe: 2n + 1 -> 2n + 2                uses or frees the old one
//! ```
//!
//! The first two steps of both are sequentially consistent. So either the thread finds the stripe odd and waits, or the reader, who came
//! later, reads the new link. A reader's last step is a release, and whoever waits for it acquires: its reads come before the free.
//! `grace.pml` is a model of this for Spin, which finds an error if the wait, or the order of the first two steps of either, is left out.
use crate::reads::{may_lose_turn, own};
use std::sync::atomic::{AtomicU64, Ordering::*};
use std::sync::Arc;

const MOST_STRIPES: usize = 64;

/// A reader at a time, on two cache lines of its own.
#[repr(align(128))]
#[derive(Default)]
struct Stripe {
    // Odd while a reader is there.
    turn: AtomicU64,
    // The hits that readers have counted while they were there, and those that were counted later.
    hits: AtomicU64,
    later_hits: AtomicU64,
    // The values that readers have put.
    puts: AtomicU64,
}

/// The stripes of a cache. Clones have the same ones.
#[derive(Clone)]
pub(crate) struct Readers(Arc<[Stripe]>);

impl Readers {
    /// Two stripes or more for each core: a power of two.
    pub(crate) fn of(cores: usize) -> Readers {
        let count = if cfg!(test) { 2 } else { (2 * cores).next_power_of_two().min(MOST_STRIPES) };
        Readers((0..count).map(|_| Stripe::default()).collect())
    }

    // The stripe that this thread tries first.
    #[inline(always)]
    fn own(&self) -> &Stripe {
        &self.0[own::stripe() & (self.0.len() - 1)]
    }

    /// Makes this thread a reader. It mustn't wait for readers before it is gone.
    #[inline(always)]
    pub(crate) fn come(&self) -> Reader<'_> {
        let stripe = self.own();
        may_lose_turn(stripe);
        stripe.come().unwrap_or_else(|| self.come_elsewhere())
    }

    // Another reader has the stripe: this thread tries another one first from now on.
    #[cold]
    fn come_elsewhere(&self) -> Reader<'_> {
        let mut round = 0;
        loop {
            own::try_next_stripe();
            #[cfg(test)]
            crate::reads::turns::takes(self.own().address());
            if let Some(reader) = self.own().come() {
                return reader;
            }
            round += 1;
            if round % self.0.len() == 0 {
                pause(round);
            }
        }
    }

    /// Waits until each reader who is there now is gone.
    #[inline]
    pub(crate) fn wait(&self) {
        self.0.iter().for_each(Stripe::wait);
    }

    /// Counts a hit of a reader who is gone.
    #[inline]
    pub(crate) fn count_later(&self) {
        self.own().later_hits.fetch_add(1, Relaxed);
    }

    /// The hits that were counted.
    pub(crate) fn hits(&self) -> u64 {
        self.0.iter().for_each(may_lose_turn);
        self.0.iter().map(|stripe| stripe.hits.load(Relaxed) + stripe.later_hits.load(Relaxed)).sum()
    }

    /// The values that were put.
    pub(crate) fn puts(&self) -> u64 {
        self.0.iter().for_each(may_lose_turn);
        self.0.iter().map(|stripe| stripe.puts.load(Relaxed)).sum()
    }

    /// By this the stripes are told from others, as long as they are there.
    #[inline(always)]
    pub(crate) fn name(&self) -> *const () {
        Arc::as_ptr(&self.0).cast()
    }
}

impl Stripe {
    #[inline(always)]
    fn come(&self) -> Option<Reader<'_>> {
        let turn = self.turn.load(Relaxed);
        if turn % 2 == 1 || self.turn.compare_exchange(turn, turn + 1, SeqCst, Relaxed).is_err() {
            return None;
        }
        #[cfg(test)]
        crate::reads::turns::holds(self.address());
        Some(Reader { stripe: self, next: turn + 2 })
    }

    #[inline]
    fn wait(&self) {
        may_lose_turn(self);
        let turn = self.turn.load(SeqCst);
        if turn % 2 == 1 {
            self.wait_while(turn);
        }
    }

    #[cold]
    fn wait_while(&self, turn: u64) {
        #[cfg(test)]
        crate::reads::turns::takes(self.address());
        let mut round = 0;
        while self.turn.load(Acquire) == turn {
            pause(round);
            round += 1;
        }
    }

    #[cfg(test)]
    fn address(&self) -> usize {
        std::ptr::from_ref(self) as usize
    }
}

/// A thread that reads, until this is dropped.
pub(crate) struct Reader<'a> {
    stripe: &'a Stripe,
    next: u64,
}

impl Reader<'_> {
    /// Counts a hit. Nobody else writes this count while the reader is there.
    #[inline(always)]
    pub(crate) fn count(&self) {
        may_lose_turn(self.stripe);
        self.stripe.hits.store(self.stripe.hits.load(Relaxed) + 1, Relaxed);
    }

    /// Counts a value that was put.
    #[inline(always)]
    pub(crate) fn count_put(&self) {
        may_lose_turn(self.stripe);
        self.stripe.puts.store(self.stripe.puts.load(Relaxed) + 1, Relaxed);
    }
}

impl Drop for Reader<'_> {
    #[inline(always)]
    fn drop(&mut self) {
        #[cfg(test)]
        crate::reads::turns::gives(self.stripe.address());
        self.stripe.turn.store(self.next, Release);
    }
}

#[cold]
fn pause(round: usize) {
    if round < 100 {
        std::hint::spin_loop();
    } else {
        std::thread::yield_now();
    }
}
