//! How threads that hit go on beside each other, and beside a thread that stores.
//!
//! One lock guards each shard. Its values stand in nodes, which whoever has the lock links into chains and takes out of them, while other
//! threads walk the chains without the lock ([`nodes`]). A thread that walks is a reader: it says so in a stripe, and what was taken out
//! of the chains isn't used again before each reader that may have seen it is gone ([`readers`]). A call that isn't sure to hit takes the
//! lock ([`shared`]). The library hears of a part of the hits, and later ([`notes`]).
mod find;
mod heads;
pub(crate) mod nodes;
pub(crate) mod notes;
pub(crate) mod own;
pub(crate) mod readers;
pub(crate) mod shared;
#[cfg(test)]
mod tests;
pub(crate) mod times;
#[cfg(test)]
pub(crate) mod turns;

/// In a test of every order a thread may lose its turn here, before it uses what others use without a lock.
#[inline(always)]
fn may_lose_turn<T: ?Sized>(_before_it_uses: &T) {
    #[cfg(test)]
    crate::reads::turns::uses(std::ptr::from_ref(_before_it_uses).cast::<()>() as usize);
}

/// How the hits of a [`Loading`](crate::Loading) are made.
#[derive(Clone, Copy, Debug, Default, PartialEq, Eq, Hash)]
#[non_exhaustive]
pub enum Reads {
    /// Threads that hit wait neither for each other nor for a thread that stores or loads. The library, which chooses what to evict,
    /// hears of a part of the hits, and somewhat later. Each hit is in [`Stats`](crate::Stats).
    #[default]
    Shared,
    /// The library hears of each hit at once. Each takes its shard's lock.
    Exact,
}
