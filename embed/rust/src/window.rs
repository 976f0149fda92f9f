//! The window of a shard, and how it follows the stream of look-ups.
//!
//! All shards of a cache have one adviser, behind a lock of its own, which is the last that a thread takes. A shard keeps the keys of
//! the look-ups that the library was told, and shows the adviser some dozen together. What the adviser wants is an atomic number, so a
//! call reads it without that lock. Before a call, a shard's window moves by some entries towards its part of that number.
use crate::adviser::Adviser;
use crate::lock::Lock;
use crate::parts::part;
use crate::{Setup, Tokens};
use std::cmp::Ordering::{Equal, Greater, Less};
use std::sync::atomic::{AtomicU32, Ordering};
use std::sync::Arc;

// So many keys are shown together.
const SHOWN: usize = if cfg!(test) { 2 } else { 64 };
// The window moves by so many entries at most before a call.
const SLIDES: usize = 4;

/// The adviser of all shards of a cache, and what it wants.
pub(crate) struct Advice {
    adviser: Lock<Option<Adviser>>,
    // How many entries the cache may hold.
    entries: u32,
    // Every call of every shard reads it, so it is written only if it changes.
    wanted: AtomicU32,
    // The keys that were shown, in their order.
    #[cfg(test)]
    shown: std::sync::Mutex<Vec<u64>>,
}

impl Advice {
    /// The advice for a cache whose shards have these setups, if the setup of the whole has its window follow the stream. If memory is
    /// refused, the adviser opens later; the windows are those that don't follow, until then.
    pub(crate) fn of(setup: &Setup, parts: &[Setup]) -> Option<Arc<Advice>> {
        let entries = parts.iter().map(|part| part.entries).sum();
        if !setup.is_adaptive(entries) {
            return None;
        }
        let adviser = Adviser::open(entries).ok();
        let fixed = || parts.iter().map(Setup::fixed_window).sum();
        let wanted = AtomicU32::new(adviser.as_ref().map_or_else(fixed, Adviser::wanted));
        Some(Arc::new(Advice {
            adviser: Lock::new(adviser),
            entries,
            wanted,
            #[cfg(test)]
            shown: Default::default(),
        }))
    }

    #[inline]
    fn wanted(&self) -> u32 {
        self.wanted.load(Ordering::Relaxed)
    }

    #[inline(never)]
    fn show(&self, keys: &[u64]) {
        let mut adviser = self.adviser.take();
        if adviser.is_none() {
            *adviser = Adviser::open(self.entries).ok();
        }
        let Some(adviser) = &mut *adviser else { return };
        // One that is refused memory goes on with what it has seen.
        let _ = adviser.saw(keys);
        if adviser.wanted() != self.wanted() {
            self.wanted.store(adviser.wanted(), Ordering::Relaxed);
        }
        #[cfg(test)]
        crate::lock::locked(&self.shown).extend(keys);
    }
}

/// Which of the shards that an adviser advises a shard is, with that adviser.
pub(crate) struct Share {
    advice: Arc<Advice>,
    shards: u32,
    shard: u32,
}

impl Share {
    /// The share of each shard.
    pub(crate) fn of(advice: Option<Arc<Advice>>, shards: usize, shard: usize) -> Option<Share> {
        advice.map(|advice| Share { advice, shards: shards as u32, shard: shard as u32 })
    }

    // The shard's part of what is wanted of all. It is within the shard's entries, which are divided alike.
    fn part_of(&self, wanted: u32) -> u32 {
        part(wanted, self.shards, self.shard).max(1)
    }
}

/// The keys of look-ups of a shard that its adviser is still to be shown: nothing if the window stays.
pub(crate) struct Seen(Option<Box<Unshown>>);

struct Unshown {
    keys: [u64; SHOWN],
    count: usize,
    advice: Arc<Advice>,
}

impl Seen {
    pub(crate) fn of(share: Option<&Share>) -> Seen {
        Seen(share.map(|share| Box::new(Unshown { keys: [0; SHOWN], count: 0, advice: share.advice.clone() })))
    }

    /// Keeps the key of a look-up that the library has made. The last that it has room for shows all of them.
    #[inline(always)]
    pub(crate) fn add(&mut self, key: u64) {
        let Some(unshown) = &mut self.0 else { return };
        unshown.keys[unshown.count % SHOWN] = key;
        unshown.count += 1;
        if unshown.count == SHOWN {
            unshown.advice.show(&unshown.keys);
            unshown.count = 0;
        }
    }

    /// The keys that the adviser was shown, in their order.
    #[cfg(test)]
    pub(crate) fn shown(&self) -> Vec<u64> {
        self.0.as_ref().map_or_else(Vec::new, |unshown| crate::lock::locked(&unshown.advice.shown).clone())
    }
}

/// How many entries the window of a shard may hold.
pub(crate) struct Window {
    holds: u32,
    // What the adviser wanted when the window had reached its part of that; 0 until it has.
    reached: u32,
    // Nothing if the window stays.
    share: Option<Share>,
}

impl Window {
    /// The window of a shard that opens.
    pub(crate) fn of(setup: &Setup, share: Option<Share>) -> Window {
        let reached = share.as_ref().map_or(0, |share| share.advice.wanted());
        let holds = share.as_ref().map_or_else(|| setup.fixed_window(), |share| share.part_of(reached));
        Window { holds, reached, share }
    }

    #[inline]
    pub(crate) fn holds(&self) -> u32 {
        self.holds
    }

    /// Whether the window is to move.
    #[inline(always)]
    pub(crate) fn is_to_move(&self) -> bool {
        self.share.as_ref().is_some_and(|share| share.advice.wanted() != self.reached)
    }

    /// Moves the window by some entries towards what is wanted of it. If memory is refused, the next call moves it further.
    #[cold]
    pub(crate) fn follow(&mut self, tokens: &mut Tokens, now: u64) {
        let Some(share) = &self.share else { return };
        let wanted = share.advice.wanted();
        let part = share.part_of(wanted);
        for _ in 0..SLIDES {
            let next = match part.cmp(&self.holds) {
                Greater => self.holds + 1,
                Less => self.holds - 1,
                Equal => break,
            };
            if tokens.slide(next > self.holds, now) != Ok(true) {
                break;
            }
            self.holds = next;
        }
        self.reached = if self.holds == part { wanted } else { 0 };
    }
}
