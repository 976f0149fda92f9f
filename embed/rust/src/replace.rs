//! The stores that depend on the value that is there.
use crate::life::Life;
use crate::loading::Loading;
use crate::panics::{Guarded, Panics};
use crate::shard::AllOut;
use crate::table::Place;
use crate::Fault;
use std::borrow::Borrow;
use std::hash::{BuildHasher, Hash};
use std::sync::Arc;

impl<K: Hash + Eq, V, E, S: BuildHasher> Loading<K, V, E, S> {
    /// Stores the value if the key's value still is `old`: the same `Arc`, not an equal value. Returns whether it did.
    ///
    /// So threads that change a value by what they read lose no change: whoever gets false looks again. The value that is there is
    /// compared and replaced in one step. It is no use of the entry if it isn't `old`, or has expired. What left is dropped, once the
    /// listener was told.
    ///
    /// If the store is refused, by `TooHeavy`, `StepsSpent` or `OutOfMemory` in this order, `old` stays. Takes the lock of the key's
    /// shard. Expected O(1).
    ///
    /// ```
    /// # use rookdresser::{Loading, Setup};
    /// # let cache = Loading::<String, u64, std::io::Error>::open(&Setup::of(100))?;
    /// cache.store("a", 7, 1)?;
    /// loop {
    ///     let old = cache.look("a")?.expect("nobody drops it");
    ///     if cache.replace_if("a", &old, *old + 1, 1)? {
    ///         break;
    ///     }
    /// }
    /// assert_eq!(cache.look("a")?.as_deref(), Some(&8));
    /// # Ok::<(), Box<dyn std::error::Error>>(())
    /// ```
    pub fn replace_if<Q>(&self, key: &Q, old: &Arc<V>, value: impl Into<Arc<V>>, weight: u32) -> Result<bool, Fault>
    where
        K: Borrow<Q>,
        Q: Hash + Eq + ?Sized,
    {
        self.replace_if_at(key, old, value, weight, self.clock.now())
    }

    /// As `replace_if`, at a moment of the caller's clock, in milliseconds.
    ///
    /// ```
    /// # use rookdresser::{Loading, Setup};
    /// # use std::time::Duration;
    /// # let cache = Loading::<String, u64, std::io::Error>::open(&Setup::of(100).after_write(Duration::from_millis(10)))?;
    /// // Entries expire after 10 milliseconds here.
    /// let old = std::sync::Arc::new(7);
    /// cache.store_at("a", old.clone(), 1, 1000)?;
    /// assert!(cache.replace_if_at("a", &old, old.clone(), 1, 1009)?);
    /// assert!(!cache.replace_if_at("a", &old, 8, 1, 1019)?);
    /// # Ok::<(), Box<dyn std::error::Error>>(())
    /// ```
    pub fn replace_if_at<Q>(
        &self,
        key: &Q,
        old: &Arc<V>,
        value: impl Into<Arc<V>>,
        weight: u32,
        now: u64,
    ) -> Result<bool, Fault>
    where
        K: Borrow<Q>,
        Q: Hash + Eq + ?Sized,
    {
        let value = Guarded::of(value.into());
        let hash = self.hash(key);
        let (mut shard, at) = self.found(self.shard(hash).take(), hash, key);
        let Some(at) = at else {
            drop(shard);
            return Ok(false);
        };
        shard.store.table.values.stop_puts();
        if !shard.holds(at, old, now) {
            shard.store.table.values.allow_puts();
            drop(shard);
            return Ok(false);
        }
        let (mut left, mut panics) = (AllOut::none(), Panics::default());
        let put = shard.store.put(Place::At(at), value.take(), (weight, Life::NONE), now, &mut left);
        shard.store.table.values.allow_puts();
        match put {
            Ok(()) => {
                self.listener.release_into(shard.give_back(left), &mut panics);
                panics.checked(Ok(true))
            }
            Err((fault, _, value)) => {
                let fault = shard.stats.refuse(fault);
                drop(shard);
                panics.of(|| drop(value));
                panics.checked(Err(fault))
            }
        }
    }

    /// The key's value; if there is none, this one, which it stores. Of several callers at once one stores, and all get its value.
    ///
    /// It looks and stores in one step, counts as a look-up, and never waits: if a load of the key is open, the load will store nothing.
    /// To make a value only if it is needed, call [`get_with`](Loading::get_with). The listener is told what left; a value that isn't
    /// stored is dropped.
    ///
    /// If the look-up is refused, nothing has changed. If the store is, by `TooHeavy`, `StepsSpent` or `OutOfMemory` in this order, the
    /// look-up was made. Takes the lock of the key's shard, or of a part of it. Expected O(1).
    ///
    /// ```
    /// # use rookdresser::{Loading, Setup};
    /// # let cache = Loading::<String, u64, std::io::Error>::open(&Setup::of(100))?;
    /// assert_eq!(*cache.get_or_insert("a", 7, 1)?, 7);
    /// assert_eq!(*cache.get_or_insert("a", 8, 1)?, 7);
    /// # Ok::<(), Box<dyn std::error::Error>>(())
    /// ```
    pub fn get_or_insert<Q>(&self, key: &Q, value: impl Into<Arc<V>>, weight: u32) -> Result<Arc<V>, Fault>
    where
        K: Borrow<Q>,
        Q: Hash + Eq + ToOwned<Owned = K> + ?Sized,
    {
        self.get_or_insert_at(key, value, weight, self.clock.now())
    }

    /// As `get_or_insert`, at a moment of the caller's clock, in milliseconds.
    ///
    /// ```
    /// # use rookdresser::{Loading, Setup};
    /// # use std::time::Duration;
    /// # let cache = Loading::<String, u64, std::io::Error>::open(&Setup::of(100).after_write(Duration::from_millis(10)))?;
    /// // Entries expire after 10 milliseconds here.
    /// assert_eq!(*cache.get_or_insert_at("a", 7, 1, 1000)?, 7);
    /// assert_eq!(*cache.get_or_insert_at("a", 8, 1, 1009)?, 7);
    /// assert_eq!(*cache.get_or_insert_at("a", 9, 1, 1010)?, 9);
    /// # Ok::<(), Box<dyn std::error::Error>>(())
    /// ```
    pub fn get_or_insert_at<Q>(&self, key: &Q, value: impl Into<Arc<V>>, weight: u32, now: u64) -> Result<Arc<V>, Fault>
    where
        K: Borrow<Q>,
        Q: Hash + Eq + ToOwned<Owned = K> + ?Sized,
    {
        let value = Guarded::of(value.into());
        let hash = self.hash(key);
        let mut panics = Panics::default();
        let shard = match self.hit(hash, key, now) {
            Ok(there) => {
                panics.of(|| drop(value));
                return panics.checked(Ok(there));
            }
            Err(shard) => shard,
        };
        let (mut shard, place, cloned) = self.place(shard, hash, key);
        let (at, own) = match place {
            Place::At(at) => (Some(at), shard.store.table.row(at).key.clone()),
            Place::New { key, .. } => (None, key),
        };
        let found = shard.look(at, hash, now);
        let mut left = shard.store.left();
        let (got, spare) = match found {
            Ok(None) => {
                // An entry that has expired has left its place.
                let place = shard.store.table.place_of(hash, own.clone());
                match shard.store.put(place, value.get().clone(), (weight, Life::NONE), now, &mut left) {
                    Ok(()) => (Ok(value.get().clone()), None),
                    Err((fault, place, value)) => (Err(shard.stats.refuse(fault)), Some((place, value))),
                }
            }
            found => (found.map(|there| there.expect("it was found")), None),
        };
        self.listener.release_into(shard.give_back(left), &mut panics);
        if let Some((place, value)) = spare {
            panics.of(|| drop(place));
            panics.of(|| drop(value));
        }
        panics.of(|| drop(own));
        panics.of(|| drop(cloned));
        panics.of(|| drop(value));
        panics.checked(got)
    }
}
