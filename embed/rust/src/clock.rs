//! The moments of calls that are given none.
use crate::Setup;
use std::sync::atomic::{AtomicBool, Ordering};
use std::time::Instant;

/// A monotonic clock that begins at 0. It stands still if no entry of the setup ever expires or gets due, and none has had a life: then no
/// moment matters, and the clock isn't read.
pub(crate) struct Clock {
    begun: Instant,
    is_read: AtomicBool,
}

impl Clock {
    pub(crate) fn of(setup: &Setup) -> Clock {
        let has_durations = setup.milliseconds() != [0; 3];
        Clock { begun: Instant::now(), is_read: AtomicBool::new(has_durations) }
    }

    /// The moment, in milliseconds.
    #[inline]
    pub(crate) fn now(&self) -> u64 {
        if !self.is_read.load(Ordering::Relaxed) {
            return 0;
        }
        self.begun.elapsed().as_millis() as u64
    }

    /// The moment of a call that gives a life. From now on the clock doesn't stand still.
    pub(crate) fn now_of_a_life(&self) -> u64 {
        if !self.is_read.load(Ordering::Relaxed) {
            self.is_read.store(true, Ordering::Relaxed);
        }
        self.now()
    }
}

#[cfg(test)]
mod tests {
    use crate::{Loading, Setup};
    use std::sync::atomic::Ordering;
    use std::time::Duration;

    #[test]
    fn the_clock_is_read_from_the_first_life_on() {
        type Pages = Loading<u64, u64, ()>;
        let is_read = |cache: &Pages| cache.clock.is_read.load(Ordering::Relaxed);
        for gives_a_life in [
            |cache: &Pages| cache.store_for(&1, 7, 1, Duration::from_secs(60)).unwrap(),
            |cache: &Pages| drop(cache.get_for(&1, || Ok((7, 1, Duration::from_secs(60)))).unwrap()),
        ] {
            let cache = Pages::open(&Setup::of(100)).unwrap();
            cache.store(&2, 8, 1).unwrap();
            assert!(!is_read(&cache));
            gives_a_life(&cache);
            assert!(is_read(&cache));
        }
    }
}
