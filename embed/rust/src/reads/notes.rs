//! The hits of which the library is still to hear.
//!
//! A hit without the lock is told later, or never. After a call that took the lock a thread's next hits are told for sure: the call may
//! evict what they use. Then one hit in 16 is told, by chance, or one in 256 while no entry leaves. Notes are told together, by whoever
//! finds the shard's lock free, or has it.
use crate::lock::{Lock, Taken};
use crate::reads::own::{self, Told};
use std::sync::atomic::{AtomicU64, Ordering::Relaxed};

// So many notes are kept in a place, and are told together.
const KEPT: usize = if cfg!(test) { 2 } else { 32 };
// A shard has so many places at most, and one for each so many entries at most: a place takes as much memory as two of them.
const MOST_PLACES: usize = if cfg!(test) { 2 } else { 8 };
const ENTRIES_OF_A_PLACE: u32 = 64;

/// A hit of a key's row.
#[derive(Clone, Copy, Default)]
pub(crate) struct Note {
    /// What the library calls the key.
    pub(crate) number: u64,
    pub(crate) at: u32,
}

/// The notes of a few threads.
#[derive(Default)]
pub(crate) struct Kept {
    notes: [Note; KEPT],
    count: usize,
    // How many entries had left when the latest hit was noted.
    left: u64,
}

impl Kept {
    /// Takes all of them out.
    pub(crate) fn take(&mut self) -> &[Note] {
        &self.notes[..std::mem::take(&mut self.count)]
    }
}

/// The notes of a shard.
pub(crate) struct Notes {
    places: Box<[Lock<Kept>]>,
    left: Left,
}

// How many entries have left, on cache lines of its own.
#[repr(align(128))]
struct Left(AtomicU64);

impl Notes {
    pub(crate) fn of(entries: u32) -> Notes {
        let places = ((entries / ENTRIES_OF_A_PLACE).max(1) as usize).min(MOST_PLACES);
        Notes { places: (0..places).map(|_| Lock::new(Kept::default())).collect(), left: Left(AtomicU64::new(1)) }
    }

    /// Counts that entries have left. Whoever has the shard's lock calls this.
    #[inline]
    pub(crate) fn count_left(&self) {
        self.left.0.store(self.left.0.load(Relaxed) + 1, Relaxed);
    }

    // Where this thread keeps its notes, unless another thread is there.
    fn place(&self) -> Option<Taken<'_, Kept>> {
        self.places[own::stripe() % self.places.len()].try_take()
    }

    /// Keeps a note. Returns all that are kept there once there are so many that they are to be told. One is lost if another thread keeps
    /// one at that time, or if those that are kept couldn't be told.
    #[inline(never)]
    pub(crate) fn add(&self, note: Note, is_told: Told) -> Option<Taken<'_, Kept>> {
        let mut kept = self.place()?;
        let left = self.left.0.load(Relaxed);
        if is_told != Told::Surely && kept.left == left {
            return None;
        }
        kept.left = left;
        let count = kept.count % KEPT;
        kept.notes[count] = note;
        kept.count = count + 1;
        (kept.count == KEPT).then_some(kept)
    }

    /// The notes of this thread, which the library is to hear of before the thread's next call.
    #[inline]
    pub(crate) fn own(&self) -> Option<Taken<'_, Kept>> {
        self.place().filter(|kept| kept.count > 0)
    }
}
