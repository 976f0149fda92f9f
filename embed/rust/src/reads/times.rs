//! The latest moment of a shard, which hits without the lock read.
use crate::reads::may_lose_turn;
use std::sync::atomic::{AtomicU64, Ordering::*};

/// The latest moment of a shard's calls, on cache lines of its own.
///
/// Whoever has the lock moves the time, and nobody else: a hit that would move it takes the lock. So the time stands still while a call
/// stores or removes, and no entry expires early because calls overlap.
#[derive(Default)]
#[repr(align(128))]
pub(crate) struct Latest(AtomicU64);

impl Latest {
    /// The moment, for a hit without the lock. It is read before the entry, and sure to hit that at a moment that isn't later, if the entry
    /// is sure to be found beyond it: the hit counts as at this moment, or as the entry was stored if that was later.
    #[inline(always)]
    pub(crate) fn before(&self) -> u64 {
        may_lose_turn(self);
        self.0.load(Acquire)
    }

    /// The moment, for whoever has the lock.
    #[inline(always)]
    pub(crate) fn get(&self) -> u64 {
        self.0.load(Relaxed)
    }

    /// Makes a moment the latest if it is later. Whoever has the lock calls this. It is written only if it changes, since hits read it.
    #[inline(always)]
    pub(crate) fn pass(&self, now: u64) {
        if now > self.get() {
            may_lose_turn(self);
            self.0.store(now, Release);
        }
    }
}
