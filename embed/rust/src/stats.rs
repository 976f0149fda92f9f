//! What an operator wants to know of a cache.
use crate::Fault;
use std::ops::AddAssign;
use std::time::Duration;

/// Counts since the cache was opened, by this side. [The front page](crate#numbers-for-an-operator) says what each is in terms of
/// Guava's `CacheStats`.
///
/// If keys have the same hash, a call may be counted for another key of that hash too, by the library's numbers as well.
#[derive(Clone, Copy, Debug, Default, PartialEq, Eq)]
#[non_exhaustive]
pub struct Stats {
    /// Calls of `look`, `get` and `get_or_insert`, and keys of a `get_many`, that found a value.
    pub hits: u64,
    /// Those that didn't: `hits + misses` are all that weren't refused.
    pub misses: u64,
    /// Misses that found another's load under way.
    pub joins: u64,
    /// Loads that returned a value.
    pub loads: u64,
    /// Loads that returned an error or panicked, whose task was dropped, or whose key a loader of several left out.
    pub failed: u64,
    /// Loads, of both kinds, of a key that was there but due.
    pub refreshes: u64,
    /// How long the loads took, together. A load of several keys counts once.
    pub load_time: Duration,
    /// Loads whose value was not stored, since the key was put, dropped, forgotten or cleared meanwhile, or the value is too
    /// heavy, or memory was refused.
    pub loose: u64,
    /// Entries that left because they were dropped or cleared.
    pub explicit: u64,
    /// Entries that left because another value was stored under their key.
    pub replaced: u64,
    /// Entries that left because they were too old.
    pub expired: u64,
    /// Entries that were evicted.
    pub size: u64,
    /// Calls that were refused, by [`Fault::place`].
    pub refused: [u64; Fault::ALL.len()],
}

impl Stats {
    /// These counts, with how many entries have left by their cause.
    pub(crate) fn with(self, causes: [u64; 4]) -> Stats {
        let [explicit, replaced, expired, size] = causes;
        Stats { explicit, replaced, expired, size, ..self }
    }

    pub(crate) fn refuse(&mut self, fault: Fault) -> Fault {
        self.refused[fault.place()] += 1;
        fault
    }
}

impl AddAssign for Stats {
    fn add_assign(&mut self, other: Stats) {
        self.hits += other.hits;
        self.misses += other.misses;
        self.joins += other.joins;
        self.loads += other.loads;
        self.failed += other.failed;
        self.refreshes += other.refreshes;
        self.load_time += other.load_time;
        self.loose += other.loose;
        self.explicit += other.explicit;
        self.replaced += other.replaced;
        self.expired += other.expired;
        self.size += other.size;
        for (refused, more) in self.refused.iter_mut().zip(other.refused) {
            *refused += more;
        }
    }
}
