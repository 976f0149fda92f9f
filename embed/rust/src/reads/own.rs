//! What each thread has of its own, for all caches: the stripe that it tries first, and which of its hits are told.
use std::cell::Cell;
use std::sync::atomic::{AtomicUsize, Ordering::Relaxed};

// So many hits of a thread are told for sure after a call that took the lock.
const SURE: u32 = if cfg!(test) { 2 } else { 8 };
// The library is told one hit of so many, and one of so many of these while no entry leaves.
const ONE_IN: u64 = if cfg!(test) { 2 } else { 16 };
const NO_STRIPE: usize = usize::MAX;
const MOST_STRIPES: usize = 1 << 20;

struct Own {
    stripe: Cell<usize>,
    // So many of the next hits are told for sure.
    sure: Cell<u32>,
    // Of random numbers: each 16th hit would be of the same keys if all threads went round the same keys.
    seed: Cell<u64>,
}

thread_local! {
    static OWN: Own = const { Own { stripe: Cell::new(NO_STRIPE), sure: Cell::new(0), seed: Cell::new(0) } };
}

/// Whether a hit is to be told.
#[derive(Clone, Copy, PartialEq, Eq)]
pub(crate) enum Told {
    Never,
    IfEntriesLeave,
    Surely,
}

/// The number of the stripe that this thread tries first. Threads get them in turn.
#[inline(always)]
pub(crate) fn stripe() -> usize {
    OWN.try_with(|own| match own.stripe.get() {
        NO_STRIPE => own.first_stripe(),
        stripe => stripe,
    })
    .unwrap_or(0)
}

/// Has this thread try the next stripe first.
pub(crate) fn try_next_stripe() {
    let _ = OWN.try_with(|own| own.stripe.set((own.stripe.get() + 1) % MOST_STRIPES));
}

/// Whether a hit of this thread is to be told.
#[inline(always)]
pub(crate) fn told() -> Told {
    OWN.try_with(Own::told).unwrap_or(Told::Never)
}

/// Has the next hits of this thread told for sure.
#[inline]
pub(crate) fn tell_surely() {
    let _ = OWN.try_with(|own| own.sure.set(SURE));
}

impl Own {
    #[cold]
    fn first_stripe(&self) -> usize {
        static NEXT: AtomicUsize = AtomicUsize::new(0);
        self.stripe.set(NEXT.fetch_add(1, Relaxed) % MOST_STRIPES);
        self.seed.set((self.stripe.get() as u64) << 40);
        self.stripe.get()
    }

    #[inline(always)]
    fn told(&self) -> Told {
        let sure = self.sure.get();
        if sure > 0 {
            self.sure.set(sure - 1);
            return Told::Surely;
        }
        let seed = self.seed.get().wrapping_mul(6_364_136_223_846_793_005).wrapping_add(1_442_695_040_888_963_407);
        self.seed.set(seed);
        match (seed >> 32 < (1 << 32) / ONE_IN, (seed >> 28) % ONE_IN) {
            (false, _) => Told::Never,
            (true, 0) => Told::Surely,
            (true, _) => Told::IfEntriesLeave,
        }
    }
}

/// Has this thread try a stripe first, and tell none of its hits for sure.
#[cfg(test)]
pub(crate) fn use_stripe(number: usize) {
    OWN.with(|own| {
        own.stripe.set(number);
        own.sure.set(0);
        own.seed.set(number as u64);
    });
}
