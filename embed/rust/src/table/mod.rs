//! The keys in use, each with its number of the library's and what it keeps of its value. No code of the caller's runs here: keys are
//! compared by whoever calls, and what is let go of is handed out.
pub(crate) mod slab;
pub(crate) mod store;

use crate::{Cause, Fault, Left};
use slab::Slab;
use std::collections::{HashSet, TryReserveError};
use std::hash::{BuildHasher, Hash, Hasher};
use std::marker::PhantomData;
use std::sync::Arc;
use store::AllLeft;

/// A key in use: by an entry, by loads, or by both.
pub(crate) struct Row<K, T> {
    pub(crate) key: Arc<K>,
    /// What the library calls the key.
    pub(crate) number: u64,
    /// What is kept of the entry's value, if there is one.
    pub(crate) kept: Option<T>,
    /// Whoever opened the key's newest load knows it by this.
    pub(crate) newest: u32,
    pub(crate) hash: u64,
    // The row that comes next in the chain, or NONE.
    next: u32,
    // How many loads of the key are open.
    loads: u32,
    // The token of the value is twice the row's place, and one more every other time: a value and the next one differ in it.
    turn: bool,
}

const NONE: u32 = u32::MAX;

/// A value that is stored: whose it is, and until when it is sure to be found.
pub(crate) struct Entry<'a, K> {
    pub(crate) key: &'a Arc<K>,
    pub(crate) hash: u64,
    /// What the library calls the key.
    pub(crate) number: u64,
    /// The key's row.
    pub(crate) at: u32,
    pub(crate) terms: Terms,
}

/// On which terms a value is stored.
#[derive(Clone, Copy, PartialEq, Eq)]
pub(crate) struct Terms {
    pub(crate) weight: u32,
    /// A look before this moment finds the value, and doesn't find it due. If it is NEVER, the value never expires and is never due.
    pub(crate) until: u64,
}

pub(crate) const NEVER: u64 = u64::MAX;

/// Where a table's values are.
pub(crate) trait Values<K> {
    /// What is stored, and leaves.
    type Value;
    /// What a row keeps of it.
    type Kept;
    /// What was taken out, and may have to be opened.
    type Out;

    /// Stores a value, in place of what is kept of the one before, which is taken out.
    fn store(
        &mut self,
        of: Entry<'_, K>,
        value: Self::Value,
        old: Option<Self::Kept>,
    ) -> (Self::Kept, Option<Self::Out>);
    /// Takes a value out of a row.
    fn take_out(&mut self, hash: u64, at: u32, kept: Self::Kept) -> Self::Out;
    /// Opens what was taken out.
    fn open(&self, left: AllLeft<K, Self::Out>) -> AllLeft<K, Self::Value>;
}

/// Values that are in the rows themselves.
pub(crate) struct InRows<V>(pub(crate) PhantomData<V>);

impl<K, V> Values<K> for InRows<V> {
    type Value = V;
    type Kept = V;
    type Out = V;

    #[inline(always)]
    fn store(&mut self, _: Entry<'_, K>, value: V, old: Option<V>) -> (V, Option<V>) {
        (value, old)
    }

    #[inline(always)]
    fn take_out(&mut self, _: u64, _: u32, kept: V) -> V {
        kept
    }

    fn open(&self, left: AllLeft<K, V>) -> AllLeft<K, V> {
        left
    }
}

/// Rows by their places, and by the hashes of their keys in chains.
pub(crate) struct Table<K, M: Values<K>> {
    pub(crate) values: M,
    rows: Slab<Row<K, M::Kept>>,
    // The first row of each chain, or NONE. There are a power of two, at least twice as many as rows.
    chains: Vec<u32>,
    // The numbers that aren't their keys' hashes.
    moved: HashSet<u64>,
}

/// Where a key stands, or is to stand.
pub(crate) enum Place<K> {
    /// It is in use, in this row.
    At(u32),
    /// It isn't, and is to have this number.
    New { hash: u64, number: u64, key: Arc<K> },
}

impl<K, M: Values<K>> Table<K, M> {
    /// For so many entries. A new key has a row before the one that it pushes out has left.
    pub(crate) fn of(entries: u32, values: M) -> Self {
        Table { values, rows: Slab::of(entries as usize + 1), chains: vec![NONE; 16], moved: HashSet::new() }
    }

    #[inline]
    fn chain(&self, hash: u64) -> usize {
        chain_of(hash, self.chains.len())
    }

    /// The rows of the keys with this hash, each with its place.
    #[inline]
    pub(crate) fn rows(&self, hash: u64) -> impl Iterator<Item = (u32, &Row<K, M::Kept>)> {
        let mut next = self.chains[self.chain(hash)];
        std::iter::from_fn(move || {
            while next != NONE {
                let at = next;
                let row = &self.rows[at];
                next = row.next;
                if row.hash == hash {
                    return Some((at, row));
                }
            }
            None
        })
    }

    /// The place of the one row with this hash, if there is one and no other.
    #[inline]
    pub(crate) fn only(&self, hash: u64) -> Option<u32> {
        let mut rows = self.rows(hash);
        let (at, _) = rows.next()?;
        rows.next().is_none().then_some(at)
    }

    /// All rows.
    pub(crate) fn all(&self) -> impl Iterator<Item = &Row<K, M::Kept>> {
        self.rows.iter().map(|(_, row)| row)
    }

    /// The row at a place that is in use.
    #[inline]
    pub(crate) fn row(&self, at: u32) -> &Row<K, M::Kept> {
        &self.rows[at]
    }

    /// The row at a place, if that is in use.
    #[inline]
    pub(crate) fn get(&self, at: u32) -> Option<&Row<K, M::Kept>> {
        self.rows.get(at)
    }

    #[inline]
    pub(crate) fn row_mut(&mut self, at: u32) -> &mut Row<K, M::Kept> {
        &mut self.rows[at]
    }

    /// A number for a new key: its hash, or the next number that no key uses. So a key that comes again is mostly counted with
    /// its earlier uses.
    pub(crate) fn free(&self, hash: u64) -> u64 {
        let mut number = hash;
        while self.moved.contains(&number) || self.rows(number).any(|(_, row)| row.number == number) {
            number = number.wrapping_add(1);
        }
        number
    }

    /// The place of a key that isn't in use yet, as long as nothing is stored or opened.
    pub(crate) fn new_place(&self, hash: u64, key: Arc<K>) -> Place<K> {
        Place::New { hash, number: self.free(hash), key }
    }

    /// The place of a key that is in use, or was: it is known by its share.
    pub(crate) fn place_of(&self, hash: u64, key: Arc<K>) -> Place<K> {
        match self.rows(hash).find(|(_, row)| Arc::ptr_eq(&row.key, &key)) {
            Some((at, _)) => Place::At(at),
            None => self.new_place(hash, key),
        }
    }

    /// The number of the place.
    #[inline]
    pub(crate) fn number(&self, place: &Place<K>) -> u64 {
        match place {
            Place::At(at) => self.rows[*at].number,
            Place::New { number, .. } => *number,
        }
    }

    /// The token of the next value that is stored at the place.
    #[inline]
    pub(crate) fn next_token(&self, place: &Place<K>) -> u64 {
        match place {
            Place::At(at) => token(*at, !self.rows[*at].turn),
            Place::New { .. } => token(self.rows.next(), false),
        }
    }

    // The row of the place.
    #[inline]
    fn held(&mut self, place: Place<K>) -> u32 {
        match place {
            Place::At(at) => at,
            Place::New { hash, number, key } => self.added(hash, number, key),
        }
    }

    /// Takes what room the place needs, so that it can be used without any more memory.
    #[inline]
    pub(crate) fn try_room(&mut self, place: &Place<K>) -> Result<(), Fault> {
        match place {
            Place::At(_) => Ok(()),
            Place::New { hash, number, .. } => self.try_new_room(number != hash).map_err(|_| Fault::OutOfMemory),
        }
    }

    fn try_new_room(&mut self, is_moved: bool) -> Result<(), TryReserveError> {
        self.rows.try_room()?;
        if is_moved {
            self.moved.try_reserve(1)?;
        }
        if self.rows.len() * 2 >= self.chains.len() {
            self.try_grow()?;
        }
        Ok(())
    }

    // The room for it was taken.
    fn added(&mut self, hash: u64, number: u64, key: Arc<K>) -> u32 {
        if number != hash {
            self.moved.insert(number);
        }
        let chain = self.chain(hash);
        let next = self.chains[chain];
        let row = Row { key, number, kept: None, newest: NONE, hash, next, loads: 0, turn: true };
        self.chains[chain] = self.rows.insert(row);
        self.chains[chain]
    }

    #[cold]
    fn try_grow(&mut self) -> Result<(), TryReserveError> {
        let (mut chains, count) = (Vec::new(), self.chains.len() * 2);
        chains.try_reserve_exact(count)?;
        chains.resize(count, NONE);
        for (at, row) in self.rows.iter_mut() {
            row.next = std::mem::replace(&mut chains[chain_of(row.hash, count)], at);
        }
        self.chains = chains;
        Ok(())
    }

    /// Has a load use the place, whose row is returned.
    pub(crate) fn open(&mut self, place: Place<K>) -> u32 {
        let at = self.held(place);
        self.rows[at].loads += 1;
        at
    }

    /// A load uses the row no longer. Returns the key if nothing else does.
    pub(crate) fn close(&mut self, at: u32) -> Option<Arc<K>> {
        self.rows[at].loads -= 1;
        self.is_free(at).then(|| self.removed(at))
    }

    fn is_free(&self, at: u32) -> bool {
        self.rows[at].loads == 0 && self.rows[at].kept.is_none()
    }

    /// Stores the value whose token was the next one. Returns the value before.
    pub(crate) fn store(&mut self, place: Place<K>, value: M::Value, terms: Terms) -> Option<M::Out> {
        let at = self.held(place);
        let row = &mut self.rows[at];
        row.turn = !row.turn;
        let Row { key, hash, number, kept, .. } = row;
        let of = Entry { key, hash: *hash, number: *number, at, terms };
        let (new, old) = self.values.store(of, value, kept.take());
        *kept = Some(new);
        old
    }

    /// The key and the value of a token that left. The value is the old one, which `store` has returned, or the row's.
    pub(crate) fn take(&mut self, gone: u64, old: &mut Option<M::Out>) -> (Arc<K>, M::Out) {
        let at = place(gone);
        let row = &mut self.rows[at];
        let value = if token(at, row.turn) == gone {
            row.kept.take().map(|kept| self.values.take_out(row.hash, at, kept))
        } else {
            old.take()
        };
        let key = if self.is_free(at) { self.removed(at) } else { self.rows[at].key.clone() };
        (key, value.expect("a token that is held has its value"))
    }

    fn removed(&mut self, at: u32) -> Arc<K> {
        let row = self.rows.remove(at);
        if row.number != row.hash {
            self.moved.remove(&row.number);
        }
        let chain = self.chain(row.hash);
        let mut before = self.chains[chain];
        if before == at {
            self.chains[chain] = row.next;
            return row.key;
        }
        while self.rows[before].next != at {
            before = self.rows[before].next;
        }
        self.rows[before].next = row.next;
        row.key
    }

    /// Takes all rows out: the keys that have no value, and the others.
    pub(crate) fn take_all(&mut self) -> (Vec<Arc<K>>, AllLeft<K, M::Out>) {
        let (mut keys, mut left) = (Vec::new(), AllLeft::none());
        for (at, row) in std::mem::replace(&mut self.rows, Slab::of(0)).into_iter() {
            match row.kept.map(|kept| self.values.take_out(row.hash, at, kept)) {
                Some(value) => left.push(Left { key: row.key, value, cause: Cause::Explicit }),
                None => keys.push(row.key),
            }
        }
        (keys, left)
    }

    /// How many keys there are.
    pub(crate) fn len(&self) -> usize {
        self.rows.len()
    }

    /// How many values and how many keys there are.
    pub(crate) fn kept(&self) -> (usize, usize) {
        (self.rows.iter().filter(|(_, row)| row.kept.is_some()).count(), self.rows.len())
    }
}

/// The key's hash. A compiler that doesn't inline `hash_one` takes 65 instructions more for a number by SipHash.
#[inline]
#[allow(clippy::manual_hash_one)]
pub(crate) fn hash_of<Q: Hash + ?Sized>(hasher: &impl BuildHasher, key: &Q) -> u64 {
    let mut hasher = hasher.build_hasher();
    key.hash(&mut hasher);
    hasher.finish()
}

// The upper half goes by most bits of the hash, so that one whose bits aren't all alike spreads too.
#[inline]
fn spread(hash: u64) -> u64 {
    hash.wrapping_mul(0x9E37_79B9_7F4A_7C15)
}

/// Which of a power of two of chains a hash belongs to.
#[inline]
pub(crate) fn chain_of(hash: u64, chains: usize) -> usize {
    (spread(hash) >> 32) as usize & (chains - 1)
}

/// Which of some parts a hash belongs to. It goes by the uppermost bits, and a chain by those below them.
#[inline]
pub(crate) fn part_of(hash: u64, parts: usize) -> usize {
    (((spread(hash) >> 32) * parts as u64) >> 32) as usize
}

#[inline]
fn token(at: u32, turn: bool) -> u64 {
    u64::from(at) * 2 + u64::from(turn)
}

/// The row of a token.
#[inline]
pub(crate) fn place(token: u64) -> u32 {
    (token / 2) as u32
}
