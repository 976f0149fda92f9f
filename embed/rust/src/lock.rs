//! Locks under which no code of the caller's runs.
use std::sync::{Mutex, MutexGuard, PoisonError, TryLockError};

/// A lock that was taken. In tests, threads may take turns at locks.
#[cfg(not(test))]
pub(crate) type Taken<'a, T> = MutexGuard<'a, T>;
#[cfg(test)]
pub(crate) use crate::reads::turns::Taken;

/// A lock on two cache lines of its own, which processors fetch together: whoever takes one doesn't slow its neighbours.
#[repr(align(128))]
pub(crate) struct Lock<T>(Mutex<T>);

impl<T> Lock<T> {
    pub(crate) fn new(of: T) -> Lock<T> {
        Lock(Mutex::new(of))
    }

    /// Takes the lock. It is held for much less than a sleep takes, so a thread that finds it taken tries some times before.
    #[inline]
    pub(crate) fn take(&self) -> Taken<'_, T> {
        #[cfg(test)]
        crate::reads::turns::takes(self.address());
        self.attempt().unwrap_or_else(|| self.wait())
    }

    /// Takes the lock if nobody has it.
    #[inline]
    pub(crate) fn try_take(&self) -> Option<Taken<'_, T>> {
        #[cfg(test)]
        crate::reads::turns::uses(self.address());
        self.attempt()
    }

    #[inline]
    fn attempt(&self) -> Option<Taken<'_, T>> {
        match self.0.try_lock() {
            Ok(guard) => Some(self.taken(guard)),
            Err(TryLockError::Poisoned(poisoned)) => Some(self.taken(poisoned.into_inner())),
            Err(TryLockError::WouldBlock) => None,
        }
    }

    #[cfg(not(test))]
    #[inline(always)]
    fn taken<'a>(&self, guard: MutexGuard<'a, T>) -> Taken<'a, T> {
        guard
    }

    #[cfg(test)]
    fn taken<'a>(&self, guard: MutexGuard<'a, T>) -> Taken<'a, T> {
        Taken::of(guard, self.address())
    }

    #[cfg(test)]
    fn address(&self) -> usize {
        std::ptr::from_ref(self) as usize
    }

    // Pauses that grow, 127 in all, then three yields, then std's own wait. The thread sanitizer can't see into that, so it isn't reached.
    #[cold]
    fn wait(&self) -> Taken<'_, T> {
        let rounds = if cfg!(rookdresser_under_thread_sanitizer) { usize::MAX } else { 10 };
        for round in 0..rounds {
            if round < 7 {
                (0..1 << round).for_each(|_| std::hint::spin_loop());
            } else {
                std::thread::yield_now();
            }
            if let Some(guard) = self.attempt() {
                return guard;
            }
        }
        self.taken(locked(&self.0))
    }
}

/// The lock, whatever happened under it.
pub(crate) fn locked<T>(mutex: &Mutex<T>) -> MutexGuard<'_, T> {
    mutex.lock().unwrap_or_else(PoisonError::into_inner)
}
