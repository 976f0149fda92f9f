//! The calls that use no entry: what is there.
use crate::loading::Loading;
use crate::table::store::Store;
use std::borrow::Borrow;
use std::hash::{BuildHasher, Hash};
use std::sync::Arc;

impl<K, V, E, S> Loading<K, V, E, S> {
    /// Whether `look` would find the key's value. It uses no entry, counts nothing, and lets nothing leave.
    ///
    /// It takes the lock of the key's shard. To use the value, call `look` alone: the entry may leave between two calls. Expected O(1).
    ///
    /// ```
    /// # use rookdresser::{Loading, Setup};
    /// # let cache = Loading::<String, u64, std::io::Error>::open(&Setup::of(100))?;
    /// cache.store("a", 7, 1)?;
    /// assert!(cache.contains_key("a") && !cache.contains_key("b"));
    /// assert_eq!((cache.stats().hits, cache.stats().misses), (0, 0));
    /// # Ok::<(), Box<dyn std::error::Error>>(())
    /// ```
    pub fn contains_key<Q>(&self, key: &Q) -> bool
    where
        K: Borrow<Q>,
        Q: Hash + Eq + ?Sized,
        S: BuildHasher,
    {
        self.contains_key_at(key, self.clock.now())
    }

    /// As `contains_key`, at a moment of the caller's clock, in milliseconds.
    ///
    /// ```
    /// # use rookdresser::{Loading, Setup};
    /// # use std::time::Duration;
    /// # let cache = Loading::<String, u64, std::io::Error>::open(&Setup::of(100).after_write(Duration::from_millis(10)))?;
    /// // Entries expire after 10 milliseconds here.
    /// cache.store_at("a", 7, 1, 1000)?;
    /// assert!(cache.contains_key_at("a", 1009) && !cache.contains_key_at("a", 1010));
    /// # Ok::<(), Box<dyn std::error::Error>>(())
    /// ```
    pub fn contains_key_at<Q>(&self, key: &Q, now: u64) -> bool
    where
        K: Borrow<Q>,
        Q: Hash + Eq + ?Sized,
        S: BuildHasher,
    {
        let hash = self.hash(key);
        let (mut shard, at) = self.found(self.shard(hash).take(), hash, key);
        let Some(at) = at else { return false };
        let number = shard.store.number(Some(at), hash);
        shard.store.library.peek(number, now).is_some()
    }

    /// The keys whose values `look` would find, each shard's at a moment of its own, in no order. It uses no entry, as `contains_key`.
    ///
    /// It takes each shard's lock in turn, for as long as it takes to go through all entries of the shard. The cache keeps the keys: a
    /// share of one is returned, and none is cloned.
    ///
    /// ```
    /// # use rookdresser::{Loading, Setup};
    /// # let cache = Loading::<String, u64, std::io::Error>::open(&Setup::of(100))?;
    /// cache.store("a", 7, 1)?;
    /// cache.store("b", 8, 1)?;
    /// let mut keys = cache.keys();
    /// keys.sort();
    /// assert_eq!(keys, [String::from("a").into(), String::from("b").into()]);
    /// # Ok::<(), Box<dyn std::error::Error>>(())
    /// ```
    pub fn keys(&self) -> Vec<Arc<K>> {
        self.keys_at(self.clock.now())
    }

    /// As `keys`, at a moment of the caller's clock, in milliseconds.
    ///
    /// ```
    /// # use rookdresser::{Loading, Setup};
    /// # use std::time::Duration;
    /// # let cache = Loading::<String, u64, std::io::Error>::open(&Setup::of(100).after_write(Duration::from_millis(10)))?;
    /// cache.store_at("a", 7, 1, 1000)?;
    /// assert_eq!((cache.keys_at(1009).len(), cache.keys_at(1010).len()), (1, 0));
    /// # Ok::<(), Box<dyn std::error::Error>>(())
    /// ```
    pub fn keys_at(&self, now: u64) -> Vec<Arc<K>> {
        let mut keys = Vec::new();
        for shard in self.all_shards() {
            let mut shard = shard.take();
            let Store { library, table, .. } = &mut shard.store;
            let there = table.all().filter(|row| row.kept.is_some() && library.peek(row.number, now).is_some());
            keys.extend(there.map(|row| row.key.clone()));
        }
        keys
    }
}
