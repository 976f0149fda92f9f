//! Which row is a key's. Keys of the caller's are compared and cloned while the lock is given back.
use crate::life::Life;
use crate::loading::Loading;
use crate::panics::{Guarded, Panics};
use crate::plain::are_plain;
use crate::reads::nodes::Value;
use crate::reads::notes::Note;
use crate::reads::shared::{Locked, Shared};
use crate::several::Several;
use crate::shard::{AllGone, AllOut};
use crate::table::store::Store;
use crate::table::{hash_of, Place, Terms, NEVER};
use std::borrow::Borrow;
use std::hash::{BuildHasher, Hash};
use std::sync::Arc;

/// The shard with the key's place, and the key itself if it was cloned, which is to be dropped once the lock is given back.
pub(crate) type Placed<'a, K, V, E> = (Locked<'a, K, V, E>, Place<K>, Option<Guarded<Arc<K>>>);

// Rows that were compared, each with its key.
type Seen<K> = Several<(u32, Guarded<Arc<K>>)>;

impl<K, V, E, S> Loading<K, V, E, S> {
    #[inline]
    pub(crate) fn hash<Q>(&self, key: &Q) -> u64
    where
        Q: Hash + ?Sized,
        S: BuildHasher,
    {
        hash_of(&self.hasher, key)
    }

    /// The key's value, if the call is sure to hit; or else the shard, for the call to be made alone.
    #[inline(always)]
    pub(crate) fn hit<Q>(&self, hash: u64, key: &Q, now: u64) -> Result<Arc<V>, Locked<'_, K, V, E>>
    where
        K: Borrow<Q>,
        Q: Eq + ?Sized,
    {
        match self.hit_without_lock(hash, key, now, |value| value.share()) {
            Some(value) => Ok(value),
            None => Err(self.shard(hash).take_for_look_up()),
        }
    }

    /// What is taken of the key's value, if the call is sure to hit.
    #[inline(always)]
    pub(crate) fn hit_without_lock<Q, T>(
        &self,
        hash: u64,
        key: &Q,
        now: u64,
        take: impl Fn(Value<'_, V>) -> T,
    ) -> Option<T>
    where
        K: Borrow<Q>,
        Q: Eq + ?Sized,
    {
        let shard = self.shard(hash);
        if !shard.is_shared() {
            return None;
        }
        if !are_plain::<K, Q>() {
            return self.hit_of_any(shard, hash, key, now, take);
        }
        let latest = shard.latest.before();
        let reading = shard.nodes.read();
        let node = reading.find(hash, |node| (*node.key).borrow() == key)?;
        let value = node.value().filter(|_| now <= latest && latest < node.terms.until)?;
        let (value, note) = (take(value), Note { number: node.number, at: node.at });
        reading.reader.count();
        drop(reading);
        shard.note(note);
        Some(value)
    }

    // The same of a key that is compared once the reader is gone: the one node of the hash is nearly always the key's.
    fn hit_of_any<Q, T>(
        &self,
        shard: &Shared<K, V, E>,
        hash: u64,
        key: &Q,
        now: u64,
        take: impl Fn(Value<'_, V>) -> T,
    ) -> Option<T>
    where
        K: Borrow<Q>,
        Q: Eq + ?Sized,
    {
        let latest = shard.latest.before();
        let reading = shard.nodes.read();
        let node = reading.find(hash, |_| true)?;
        if reading.find(hash, |other| !std::ptr::eq(other, node)).is_some() {
            return None;
        }
        let value = node.value().filter(|_| now <= latest && latest < node.terms.until)?;
        let (value, note) = (take(value), Note { number: node.number, at: node.at });
        let row = Guarded::of(node.key.clone());
        drop(reading);
        let value = self.is_of(row, key, value)?;
        self.readers.count_later();
        shard.note(note);
        Some(value)
    }

    /// Puts the value without the lock in place of one that never expires and weighs the same, and returns that one: to the library it is
    /// a use. Gives the value back if that isn't there, or the key isn't compared among the nodes. A put that moves the time takes the lock.
    #[inline(always)]
    pub(crate) fn put_in_place<Q>(
        &self,
        hash: u64,
        key: &Q,
        value: Arc<V>,
        (weight, life): (u32, Life),
        now: u64,
    ) -> Result<AllGone<K, V>, Arc<V>>
    where
        K: Borrow<Q>,
        Q: Eq + ?Sized,
    {
        let shard = self.shard(hash);
        if life != Life::NONE || !are_plain::<K, Q>() || !shard.is_shared() || now > shard.latest.before() {
            return Err(value);
        }
        let terms = Terms { weight, until: NEVER };
        let reading = shard.nodes.read();
        let found = reading.find(hash, |node| (*node.key).borrow() == key).filter(|node| node.terms == terms);
        let Some(node) = found else { return Err(value) };
        let left = reading.put(node, value)?;
        let note = Note { number: node.number, at: node.at };
        reading.reader.count_put();
        drop(reading);
        shard.note(note);
        Ok(shard.nodes.open(AllOut::of(left)))
    }

    /// The row that is alone of its hash. It is nearly always the key's: a call uses it at once, and has the key compared by
    /// `is_of` once the lock is given back. Nothing with `after_access`: a use by another key would keep the entry from expiring.
    pub(crate) fn only(&self, shard: &Locked<'_, K, V, E>, hash: u64) -> Option<(Guarded<Arc<K>>, u32)> {
        let Store { library, table, .. } = &shard.store;
        if library.has_after_access() {
            return None;
        }
        table.only(hash).map(|at| (Guarded::of(table.row(at).key.clone()), at))
    }

    /// Returns what was found in a row if its key is this one; else what was found is dropped, with no lock held. If the equality
    /// or a drop panics, the panic is passed on once all is dropped.
    pub(crate) fn is_of<T, Q>(&self, row: Guarded<Arc<K>>, key: &Q, found: T) -> Option<T>
    where
        K: Borrow<Q>,
        Q: Eq + ?Sized,
    {
        let mut panics = Panics::default();
        let is_same = panics.of(|| (**row.get()).borrow() == key);
        panics.of(|| drop(row));
        if is_same == Some(true) {
            return Some(panics.checked(found));
        }
        panics.of(|| drop(found));
        panics.pass_on();
        None
    }

    /// The key's row if it is in use. Keys are compared while the lock is given back, until the rows of the hash are those that
    /// were compared.
    #[inline]
    pub(crate) fn found<'a, Q>(
        &'a self,
        shard: Locked<'a, K, V, E>,
        hash: u64,
        key: &Q,
    ) -> (Locked<'a, K, V, E>, Option<u32>)
    where
        K: Borrow<Q>,
        Q: Eq + ?Sized,
    {
        if are_plain::<K, Q>() {
            let at = shard.store.table.rows(hash).find(|(_, row)| (*row.key).borrow() == key).map(|row| row.0);
            return (shard, at);
        }
        self.compared(shard, hash, key)
    }

    fn compared<'a, Q>(
        &'a self,
        mut shard: Locked<'a, K, V, E>,
        hash: u64,
        key: &Q,
    ) -> (Locked<'a, K, V, E>, Option<u32>)
    where
        K: Borrow<Q>,
        Q: Eq + ?Sized,
    {
        let (mut seen, mut at) = (Seen::none(), None);
        loop {
            let rows = shard.store.table.rows(hash).map(|(at, row)| (at, Arc::as_ptr(&row.key)));
            if rows.eq(seen.iter().map(|(at, key)| (*at, Arc::as_ptr(key.get())))) {
                // The rows keep their keys alive: none of these is the last share.
                return (shard, at);
            }
            let rows = shard.store.table.rows(hash).map(|(at, row)| (at, Guarded::of(row.key.clone())));
            let rows = rows.collect();
            drop(shard);
            // Some may have left since they were compared, so each may be the last share.
            drop(std::mem::replace(&mut seen, rows));
            at = seen.iter().find(|(_, other)| (**other.get()).borrow() == key).map(|row| row.0);
            shard = self.shard(hash).take();
        }
    }

    /// The key's place, for a call that stores or loads.
    #[inline(always)]
    pub(crate) fn place<'a, Q>(&'a self, shard: Locked<'a, K, V, E>, hash: u64, key: &Q) -> Placed<'a, K, V, E>
    where
        K: Borrow<Q>,
        Q: Eq + ToOwned<Owned = K> + ?Sized,
    {
        let (shard, at) = self.found(shard, hash, key);
        if are_plain::<K, Q>() {
            let new = || shard.store.table.new_place(hash, Arc::new(key.to_owned()));
            let place = at.map_or_else(new, Place::At);
            return (shard, place, None);
        }
        match at {
            Some(at) => (shard, Place::At(at), None),
            None => self.new_place(shard, hash, key),
        }
    }

    // The place of a key that isn't in use, or wasn't before it was cloned with no lock held.
    #[inline(never)]
    fn new_place<'a, Q>(&'a self, shard: Locked<'a, K, V, E>, hash: u64, key: &Q) -> Placed<'a, K, V, E>
    where
        K: Borrow<Q>,
        Q: Eq + ToOwned<Owned = K> + ?Sized,
    {
        drop(shard);
        let owned = Guarded::of(Arc::new(key.to_owned()));
        let (shard, at) = self.found(self.shard(hash).take(), hash, key);
        let place = at.map_or_else(|| shard.store.table.new_place(hash, owned.get().clone()), Place::At);
        (shard, place, Some(owned))
    }
}
