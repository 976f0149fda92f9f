//! A shard that one thread at a time changes, while others read its values.
use crate::lock::{Lock, Taken};
use crate::reads::nodes::{Nodes, Sealed};
use crate::reads::notes::{Note, Notes};
use crate::reads::own::{self, Told};
use crate::reads::times::Latest;
use crate::reads::Reads;
use crate::shard::{AllGone, Shard};
use crate::table::store::AllLeft;
use std::ops::{Deref, DerefMut};
use std::sync::Arc;

/// A shard, with what threads read beside whoever has its lock.
pub(crate) struct Shared<K, V, E> {
    pub(crate) nodes: Arc<Nodes<K, V>>,
    pub(crate) latest: Arc<Latest>,
    is_shared: bool,
    notes: Notes,
    base: Lock<Shard<K, V, E>>,
}

/// The shard, for one caller alone.
pub(crate) struct Locked<'a, K, V, E> {
    shard: Taken<'a, Shard<K, V, E>>,
    of: &'a Shared<K, V, E>,
}

impl<K, V, E> Deref for Locked<'_, K, V, E> {
    type Target = Shard<K, V, E>;

    #[inline(always)]
    fn deref(&self) -> &Shard<K, V, E> {
        &self.shard
    }
}

impl<K, V, E> DerefMut for Locked<'_, K, V, E> {
    #[inline(always)]
    fn deref_mut(&mut self) -> &mut Shard<K, V, E> {
        &mut self.shard
    }
}

impl<K, V, E> Locked<'_, K, V, E> {
    /// Gives the lock back, and returns what left, once no reader is left who may have seen it there.
    #[inline]
    pub(crate) fn give_back(self, left: AllLeft<K, Sealed<K, V>>) -> AllGone<K, V> {
        if left.is_empty() {
            return AllGone::none();
        }
        let Locked { shard, of } = self;
        of.notes.count_left();
        drop(shard);
        of.nodes.open(left)
    }
}

impl<K, V, E> Shared<K, V, E> {
    pub(crate) fn new(shard: Shard<K, V, E>, entries: u32) -> Self {
        let (nodes, latest) = (shard.store.table.values.nodes.clone(), shard.store.library.latest().clone());
        let mut shared = Shared { nodes, latest, is_shared: false, notes: Notes::of(entries), base: Lock::new(shard) };
        shared.read_by(Reads::Shared);
        shared
    }

    /// Has hits made in this way.
    pub(crate) fn read_by(&mut self, reads: Reads) {
        // The library has to hear of each use at once if `after_access` is set.
        self.is_shared = reads == Reads::Shared && !self.take().store.library.has_after_access();
    }

    /// Whether hits are made without the lock.
    #[inline(always)]
    pub(crate) fn is_shared(&self) -> bool {
        self.is_shared
    }

    /// Takes the shard alone.
    #[inline]
    pub(crate) fn take(&self) -> Locked<'_, K, V, E> {
        Locked { shard: self.base.take(), of: self }
    }

    /// The same for a look-up that wasn't sure to hit. The library hears of this thread's hits before.
    #[inline]
    pub(crate) fn take_for_look_up(&self) -> Locked<'_, K, V, E> {
        let mut shard = self.take();
        if self.is_shared {
            own::tell_surely();
            if let Some(mut notes) = self.notes.own() {
                shard.tell(notes.take());
            }
        }
        shard
    }

    /// Notes a hit that was made without the lock, if it is one of those that are told.
    #[inline(always)]
    pub(crate) fn note(&self, note: Note) {
        match own::told() {
            Told::Never => {}
            told => self.note_told(note, told),
        }
    }

    #[inline(never)]
    fn note_told(&self, note: Note, told: Told) {
        if let Some(mut notes) = self.notes.add(note, told) {
            if let Some(mut shard) = self.base.try_take() {
                shard.tell(notes.take());
            }
        }
    }
}
