//! The values of a shard, in nodes that threads read while another one changes their chains.
//!
//! This module alone has `unsafe` code for that, and safety rests on types: a node is lent by a [`Reading`], which is a reader as long as
//! it is there; a [`Writer`], of which there is one, changes the chains; and what it took out is [`Sealed`], until `Nodes::open` has waited
//! for all readers who may have seen it. Callers have no rule to keep: what they forget to open loses its memory, and nothing else.
use crate::reads::heads::Heads;
use crate::reads::may_lose_turn;
use crate::reads::readers::{Reader, Readers};
use crate::table::store::AllLeft;
use crate::table::{Entry, Terms};
use crate::{Cause, Left};
use std::marker::PhantomData;
use std::ptr::{null_mut, NonNull};
use std::sync::atomic::{AtomicBool, AtomicPtr, Ordering::*};
use std::sync::Arc;

/// A value with its key. While it is in a chain, only the value and the link change.
pub(crate) struct Node<K, V> {
    hash: u64,
    pub(crate) key: Arc<K>,
    // Of `Arc::into_raw`, whose share is the node's; null once the node was taken out.
    value: AtomicPtr<V>,
    /// What the library calls the key.
    pub(crate) number: u64,
    /// The key's row.
    pub(crate) at: u32,
    /// On which each of its values is stored.
    pub(crate) terms: Terms,
    next: AtomicPtr<Node<K, V>>,
}

impl<K, V> Node<K, V> {
    /// The value, unless the node was taken out.
    #[inline(always)]
    pub(crate) fn value(&self) -> Option<Value<'_, V>> {
        may_lose_turn(&self.value);
        NonNull::new(self.value.load(SeqCst)).map(|value| Value(value, PhantomData))
    }
}

/// A value that a reader sees. It isn't dropped before the reader is gone.
pub(crate) struct Value<'a, V>(NonNull<V>, PhantomData<&'a V>);

impl<V: Copy> Value<'_, V> {
    /// A copy of it.
    #[inline(always)]
    pub(crate) fn copied(self) -> V {
        // SAFETY: it isn't dropped before this reader is gone, and nothing writes what is in an `Arc`.
        unsafe { *self.0.as_ref() }
    }
}

impl<V> Value<'_, V> {
    /// A share of it.
    #[inline(always)]
    pub(crate) fn share(self) -> Arc<V> {
        // SAFETY: `Arc::into_raw` returned the pointer, and the share that was the node's isn't dropped before this reader is gone.
        unsafe {
            Arc::increment_strong_count(self.0.as_ptr());
            Arc::from_raw(self.0.as_ptr())
        }
    }
}

/// The chains of a shard, for those who read them.
pub(crate) struct Nodes<K, V> {
    heads: AtomicPtr<Heads<Node<K, V>>>,
    // Whether readers may put values in place of others.
    may_put: AtomicBool,
    readers: Readers,
    // Readers drop shares in their own threads.
    _shares: PhantomData<(Arc<K>, Arc<V>)>,
}

impl<K, V> Nodes<K, V> {
    /// Makes this thread a reader of the chains.
    #[inline(always)]
    pub(crate) fn read(&self) -> Reading<'_, K, V> {
        Reading { reader: self.readers.come(), nodes: self }
    }

    /// Waits until no reader is left who may have seen what was taken out, and opens it. It has to be of a cache with these readers.
    pub(crate) fn open(&self, left: AllLeft<K, Sealed<K, V>>) -> AllLeft<K, Arc<V>> {
        if left.is_empty() {
            return AllLeft::none();
        }
        self.readers.wait();
        left.map(|Left { key, value: Sealed { node, value, readers }, cause }| {
            assert!(readers == self.readers.name(), "it was taken out of another cache");
            // SAFETY: a box and an `Arc` made them, and `Sealed` alone has them. They were taken out before this call, and each reader who
            // had come by then is gone. The node's share of the key isn't the last one: the row's one is here.
            let value = unsafe {
                drop((!node.is_null()).then(|| Box::from_raw(node)));
                Arc::from_raw(value)
            };
            Left { key, value, cause }
        })
    }

    #[inline(always)]
    fn heads(&self) -> &Heads<Node<K, V>> {
        may_lose_turn(self);
        // SAFETY: readers and the writer call this. The writer frees heads once it has replaced them, and then has waited for readers.
        unsafe { &*self.heads.load(SeqCst) }
    }
}

/// A reader of the chains.
pub(crate) struct Reading<'a, K, V> {
    pub(crate) reader: Reader<'a>,
    nodes: &'a Nodes<K, V>,
}

impl<K, V> Reading<'_, K, V> {
    #[inline(always)]
    fn follow(&self, link: &AtomicPtr<Node<K, V>>) -> Option<&Node<K, V>> {
        // SAFETY: where a link leads was in a chain when this reader came, or since. So it isn't freed before the reader is gone.
        unsafe { link.load(SeqCst).as_ref() }
    }

    /// The first node of the hash that is the one. It may not be found while the chains grow.
    #[inline(always)]
    pub(crate) fn find(&self, hash: u64, is_it: impl Fn(&Node<K, V>) -> bool) -> Option<&Node<K, V>> {
        let mut next = self.follow(self.nodes.heads().of_hash(hash));
        while let Some(node) = next {
            if node.hash == hash && is_it(node) {
                return Some(node);
            }
            next = self.follow(&node.next);
        }
        None
    }

    /// Puts a value in place of the node's, which is taken out. Gives it back if the node was taken out, or values may not be put now.
    #[inline(always)]
    pub(crate) fn put(&self, node: &Node<K, V>, value: Arc<V>) -> Result<Replaced<K, V>, Arc<V>> {
        may_lose_turn(self.nodes);
        let new = self.nodes.may_put.load(SeqCst).then(|| Arc::as_ptr(&value).cast_mut());
        may_lose_turn(&node.value);
        let old = node.value.fetch_update(SeqCst, SeqCst, |old| new.filter(|_| !old.is_null()));
        let Ok(old) = old else { return Err(value) };
        // The share is the node's now.
        std::mem::forget(value);
        let value = Sealed { node: null_mut(), value: old, readers: self.nodes.readers.name() };
        Ok(Left { key: node.key.clone(), value, cause: Cause::Replaced })
    }
}

/// What left its node to another value.
pub(crate) type Replaced<K, V> = Left<Arc<K>, Sealed<K, V>>;

/// What was taken out of a chain, where readers may still see it.
#[must_use]
pub(crate) struct Sealed<K, V> {
    // Null if it stays, with another value.
    node: *mut Node<K, V>,
    value: *const V,
    readers: *const (),
}

/// Changes the chains of a shard.
pub(crate) struct Writer<K, V> {
    pub(crate) nodes: Arc<Nodes<K, V>>,
    count: usize,
}

impl<K, V> Writer<K, V> {
    pub(crate) fn of(readers: Readers) -> Self {
        let heads = Box::into_raw(Box::new(Heads::few())).into();
        Writer { nodes: Arc::new(Nodes { heads, may_put: true.into(), readers, _shares: PhantomData }), count: 0 }
    }

    fn follow(&self, link: &AtomicPtr<Node<K, V>>) -> Option<&Node<K, V>> {
        // SAFETY: a node is freed after this writer, which nobody else has now, has taken it out of its chain.
        unsafe { link.load(Relaxed).as_ref() }
    }

    // The link that leads to the row's node, or the last one of the chain.
    fn link_to(&self, hash: u64, at: u32) -> &AtomicPtr<Node<K, V>> {
        let mut link = self.nodes.heads().of_hash(hash);
        while let Some(node) = self.follow(link).filter(|node| node.at != at || node.hash != hash) {
            link = &node.next;
        }
        link
    }

    /// Shows a value of a row, in place of the one before, which is taken out.
    pub(crate) fn show(&mut self, of: Entry<'_, K>, value: Arc<V>) -> Option<Sealed<K, V>> {
        let Entry { key, hash, number, at, terms } = of;
        let value = Arc::into_raw(value).cast_mut();
        let link = self.link_to(hash, at);
        let node = self.follow(link);
        if let Some(node) = node.filter(|node| node.terms == terms) {
            may_lose_turn(&node.value);
            return Some(self.sealed(null_mut(), node.value.swap(value, SeqCst)));
        }
        let next = node.map_or_else(null_mut, |node| node.next.load(Relaxed)).into();
        let new =
            Box::into_raw(Box::new(Node { hash, key: key.clone(), value: value.into(), number, at, terms, next }));
        if let Some(node) = node {
            return Some(self.replaced(link, node, new));
        }
        may_lose_turn(&*self.nodes);
        link.store(new, SeqCst);
        self.count += 1;
        if self.nodes.heads().are_full(self.count) {
            self.try_grow();
        }
        None
    }

    /// Has no reader put a value from now on, until they may again.
    pub(crate) fn stop_puts(&mut self) {
        may_lose_turn(&*self.nodes);
        self.nodes.may_put.store(false, SeqCst);
        self.nodes.readers.wait();
    }

    /// Lets readers put values again.
    pub(crate) fn allow_puts(&mut self) {
        may_lose_turn(&*self.nodes);
        self.nodes.may_put.store(true, SeqCst);
    }

    /// Takes the row's value out.
    pub(crate) fn take_out(&mut self, hash: u64, at: u32) -> Sealed<K, V> {
        self.count -= 1;
        let link = self.link_to(hash, at);
        let node = self.follow(link).expect("the row has a node");
        self.replaced(link, node, node.next.load(Relaxed))
    }

    // Takes the value of the link's node, and has the link lead elsewhere.
    fn replaced(&self, link: &AtomicPtr<Node<K, V>>, node: &Node<K, V>, to: *mut Node<K, V>) -> Sealed<K, V> {
        may_lose_turn(&node.value);
        let value = node.value.swap(null_mut(), SeqCst);
        may_lose_turn(&*self.nodes);
        self.sealed(link.swap(to, SeqCst), value)
    }

    fn sealed(&self, node: *mut Node<K, V>, value: *const V) -> Sealed<K, V> {
        Sealed { node, value, readers: self.nodes.readers.name() }
    }

    // Makes twice as many chains. If memory is refused, the chains get longer.
    #[cold]
    fn try_grow(&mut self) {
        let Some(heads) = self.nodes.heads().twice() else { return };
        self.nodes.heads().move_into(&heads, |link| self.follow(link), |node| (node.hash, &node.next));
        let old = self.nodes.heads.swap(Box::into_raw(Box::new(heads)), SeqCst);
        self.nodes.readers.wait();
        // SAFETY: a box made them, nothing leads to them, and the readers who may have seen them are gone.
        drop(unsafe { Box::from_raw(old) });
    }
}

// Rows take out what they have before they are dropped. What were left here would lose its memory.
impl<K, V> Drop for Nodes<K, V> {
    fn drop(&mut self) {
        // SAFETY: a box made the heads, and nobody else has them.
        drop(unsafe { Box::from_raw(*self.heads.get_mut()) });
    }
}
