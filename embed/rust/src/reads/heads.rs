//! Where the chains of a shard's nodes begin.
use crate::table::chain_of;
use std::sync::atomic::{AtomicPtr, Ordering::*};

/// The first node of each chain: a power of two of them.
pub(crate) struct Heads<T>(Vec<AtomicPtr<T>>);

impl<T> Heads<T> {
    /// A few empty chains.
    pub(crate) fn few() -> Self {
        Heads((0..8).map(|_| AtomicPtr::default()).collect())
    }

    /// Twice as many empty chains, unless memory is refused.
    pub(crate) fn twice(&self) -> Option<Self> {
        let (mut heads, count) = (Vec::new(), 2 * self.0.len());
        heads.try_reserve_exact(count).ok()?;
        heads.resize_with(count, AtomicPtr::default);
        Some(Heads(heads))
    }

    /// Whether so many nodes are too many for the chains.
    pub(crate) fn are_full(&self, nodes: usize) -> bool {
        // A shard of 128 entries has 129 nodes for a moment, as a new one pushes another out.
        nodes > self.0.len() * 5 / 4
    }

    /// Where the chain of a hash begins.
    #[inline(always)]
    pub(crate) fn of_hash(&self, hash: u64) -> &AtomicPtr<T> {
        &self.0[chain_of(hash, self.0.len())]
    }

    /// Moves all nodes into other chains. Who reads meanwhile may be led from an old chain into a new one, and comes to its end.
    pub(crate) fn move_into<'n>(
        &self,
        others: &Heads<T>,
        follow: impl Fn(&AtomicPtr<T>) -> Option<&'n T>,
        hash_and_next: impl Fn(&'n T) -> (u64, &'n AtomicPtr<T>),
    ) where
        T: 'n,
    {
        for link in &self.0 {
            let mut moved = AtomicPtr::new(link.load(Relaxed));
            while let Some((hash, link)) = follow(&moved).map(&hash_and_next) {
                let (head, next) = (others.of_hash(hash), link.load(Relaxed));
                link.store(head.load(Relaxed), SeqCst);
                head.store(std::mem::replace(moved.get_mut(), next), SeqCst);
            }
        }
    }
}
