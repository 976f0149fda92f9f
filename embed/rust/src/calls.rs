//! The calls on a key that load nothing.
use crate::life::Life;
use crate::loading::Loading;
use crate::panics::{Guarded, Panics};
use crate::plain::are_plain;
use crate::reads::shared::Locked;
use crate::shard::{AllGone, AllOut, Gone};
use crate::Fault;
use std::borrow::Borrow;
use std::hash::{BuildHasher, Hash};
use std::sync::Arc;
use std::time::Duration;

impl<K: Hash + Eq, V, E, S: BuildHasher> Loading<K, V, E, S> {
    /// The key's value, if it is there, with no load.
    ///
    /// ```
    /// # use rookdresser::{Loading, Setup};
    /// # let cache = Loading::<String, u64, std::io::Error>::open(&Setup::of(100))?;
    /// cache.store("a", 7, 1)?;
    /// assert_eq!((cache.look("a")?, cache.look("b")?), (Some(7.into()), None));
    /// # Ok::<(), Box<dyn std::error::Error>>(())
    /// ```
    pub fn look<Q>(&self, key: &Q) -> Result<Option<Arc<V>>, Fault>
    where
        K: Borrow<Q>,
        Q: Hash + Eq + ?Sized,
    {
        self.look_at(key, self.clock.now())
    }

    /// As `look`, at a moment of the caller's clock, in milliseconds.
    ///
    /// ```
    /// # use rookdresser::{Loading, Setup};
    /// # use std::time::Duration;
    /// # let cache = Loading::<String, u64, std::io::Error>::open(&Setup::of(100).after_write(Duration::from_millis(10)))?;
    /// // Entries expire after 10 milliseconds here.
    /// cache.store_at("a", 7, 1, 1000)?;
    /// assert_eq!((cache.look_at("a", 1009)?, cache.look_at("a", 1010)?), (Some(7.into()), None));
    /// # Ok::<(), Box<dyn std::error::Error>>(())
    /// ```
    pub fn look_at<Q>(&self, key: &Q, now: u64) -> Result<Option<Arc<V>>, Fault>
    where
        K: Borrow<Q>,
        Q: Hash + Eq + ?Sized,
    {
        let hash = self.hash(key);
        match self.hit(hash, key, now) {
            Ok(value) => Ok(Some(value)),
            Err(shard) => self.look_alone(shard, hash, key, now),
        }
    }

    // A look by whoever has the shard's lock.
    fn look_alone<'a, Q>(
        &'a self,
        mut shard: Locked<'a, K, V, E>,
        hash: u64,
        key: &Q,
        now: u64,
    ) -> Result<Option<Arc<V>>, Fault>
    where
        K: Borrow<Q>,
        Q: Hash + Eq + ?Sized,
    {
        if !are_plain::<K, Q>() {
            if let Some((row, at)) = self.only(&shard, hash) {
                let found = self.looked(shard, Some(at), hash, now);
                if let Some(found) = self.is_of(row, key, found) {
                    return found;
                }
                shard = self.shard(hash).take();
            }
        }
        let (shard, at) = self.found(shard, hash, key);
        self.looked(shard, at, hash, now)
    }

    /// A copy of the key's value, if it is there, with no load. It is as `look`, but no thread writes a count of the value's shares, which
    /// four threads that hit the same keys do one after another. So they make more hits together.
    ///
    /// ```
    /// # use rookdresser::{Loading, Setup};
    /// # let cache = Loading::<String, u64, std::io::Error>::open(&Setup::of(100))?;
    /// cache.store("a", 7, 1)?;
    /// assert_eq!((cache.look_copied("a")?, cache.look_copied("b")?), (Some(7), None));
    /// # Ok::<(), Box<dyn std::error::Error>>(())
    /// ```
    pub fn look_copied<Q>(&self, key: &Q) -> Result<Option<V>, Fault>
    where
        K: Borrow<Q>,
        Q: Hash + Eq + ?Sized,
        V: Copy,
    {
        self.look_copied_at(key, self.clock.now())
    }

    /// As `look_copied`, at a moment of the caller's clock, in milliseconds.
    ///
    /// ```
    /// # use rookdresser::{Loading, Setup};
    /// # use std::time::Duration;
    /// # let cache = Loading::<String, u64, std::io::Error>::open(&Setup::of(100).after_write(Duration::from_millis(10)))?;
    /// // Entries expire after 10 milliseconds here.
    /// cache.store_at("a", 7, 1, 1000)?;
    /// assert_eq!((cache.look_copied_at("a", 1009)?, cache.look_copied_at("a", 1010)?), (Some(7), None));
    /// # Ok::<(), Box<dyn std::error::Error>>(())
    /// ```
    pub fn look_copied_at<Q>(&self, key: &Q, now: u64) -> Result<Option<V>, Fault>
    where
        K: Borrow<Q>,
        Q: Hash + Eq + ?Sized,
        V: Copy,
    {
        let hash = self.hash(key);
        match self.hit_without_lock(hash, key, now, |value| value.copied()) {
            Some(value) => Ok(Some(value)),
            None => Ok(self.look_alone(self.shard(hash).take_for_look_up(), hash, key, now)?.map(|value| *value)),
        }
    }

    #[inline]
    fn looked(
        &self,
        mut shard: Locked<'_, K, V, E>,
        at: Option<u32>,
        hash: u64,
        now: u64,
    ) -> Result<Option<Arc<V>>, Fault> {
        let found = shard.look(at, hash, now)?;
        Ok(self.give_back(shard, found))
    }

    /// Takes the key's entry out, and returns what left. A load of the key that is open will store nothing.
    ///
    /// ```
    /// # use rookdresser::{Loading, Setup};
    /// # let cache = Loading::<String, u64, std::io::Error>::open(&Setup::of(100))?;
    /// cache.store("a", 7, 1)?;
    /// assert_eq!(*cache.drop_key("a")?[0].value, 7);
    /// assert_eq!(cache.look("a")?, None);
    /// # Ok::<(), Box<dyn std::error::Error>>(())
    /// ```
    pub fn drop_key<Q>(&self, key: &Q) -> Result<Vec<Gone<K, V>>, Fault>
    where
        K: Borrow<Q>,
        Q: Hash + Eq + ?Sized,
    {
        self.drop_key_at(key, self.clock.now())
    }

    /// As `drop_key`, at a moment of the caller's clock, in milliseconds.
    ///
    /// ```
    /// # use rookdresser::{Cause, Loading, Setup};
    /// # use std::time::Duration;
    /// # let cache = Loading::<String, u64, std::io::Error>::open(&Setup::of(100).after_write(Duration::from_millis(10)))?;
    /// cache.store_at("a", 7, 1, 1000)?;
    /// assert_eq!(cache.drop_key_at("a", 1005)?[0].cause, Cause::Explicit);
    /// # Ok::<(), Box<dyn std::error::Error>>(())
    /// ```
    pub fn drop_key_at<Q>(&self, key: &Q, now: u64) -> Result<Vec<Gone<K, V>>, Fault>
    where
        K: Borrow<Q>,
        Q: Hash + Eq + ?Sized,
    {
        let hash = self.hash(key);
        let (mut shard, at) = self.found(self.shard(hash).take(), hash, key);
        let number = shard.store.number(at, hash);
        let mut left = AllOut::none();
        let dropped = shard.store.drop_key(number, now, &mut left);
        shard.counted(dropped)?;
        Ok(self.listener.told(shard.give_back(left), Panics::default()))
    }

    /// Lets nobody further join a load of the key that is open, which will store nothing. Tells whether there was one.
    ///
    /// ```
    /// # use rookdresser::{Loading, Setup};
    /// # let cache = Loading::<String, u64, std::io::Error>::open(&Setup::of(100))?;
    /// let seven = cache.get_with("a", || {
    ///     // What is loaded got old meanwhile.
    ///     assert_eq!(cache.forget("a"), Ok(true));
    ///     7
    /// })?;
    /// assert_eq!((*seven, cache.look("a")?), (7, None));
    /// # Ok::<(), Box<dyn std::error::Error>>(())
    /// ```
    pub fn forget<Q>(&self, key: &Q) -> Result<bool, Fault>
    where
        K: Borrow<Q>,
        Q: Hash + Eq + ?Sized,
    {
        self.forget_at(key, self.clock.now())
    }

    /// As `forget`, at a moment of the caller's clock, in milliseconds.
    ///
    /// ```
    /// # use rookdresser::{Loading, Setup};
    /// # use std::time::Duration;
    /// # let cache = Loading::<String, u64, std::io::Error>::open(&Setup::of(100).after_write(Duration::from_millis(10)))?;
    /// assert_eq!(cache.forget_at("a", 1000), Ok(false)); // no load of it is open
    /// # Ok::<(), Box<dyn std::error::Error>>(())
    /// ```
    pub fn forget_at<Q>(&self, key: &Q, now: u64) -> Result<bool, Fault>
    where
        K: Borrow<Q>,
        Q: Hash + Eq + ?Sized,
    {
        let hash = self.hash(key);
        let (mut shard, at) = self.found(self.shard(hash).take(), hash, key);
        let number = shard.store.number(at, hash);
        let mut left = AllOut::none();
        let forgot = shard.store.forget(number, now, &mut left);
        let forgot = shard.counted(forgot)?;
        self.listener.release(shard.give_back(left));
        Ok(forgot)
    }

    /// Stores the value under the key. What left is dropped, once the listener was told.
    ///
    /// It takes a `V`, of which the cache makes an `Arc`, or an `Arc<V>`. So do the other calls that store.
    ///
    /// ```
    /// # use rookdresser::{Loading, Setup};
    /// # let cache = Loading::<String, u64, std::io::Error>::open(&Setup::of(100))?;
    /// cache.store("a", 7, 1)?;
    /// let seven = cache.look("a")?.expect("it is there"); // an Arc<u64>
    /// cache.store("b", seven, 1)?;
    /// assert_eq!(cache.look("b")?.as_deref(), Some(&7));
    /// # Ok::<(), Box<dyn std::error::Error>>(())
    /// ```
    pub fn store<Q>(&self, key: &Q, value: impl Into<Arc<V>>, weight: u32) -> Result<(), Fault>
    where
        K: Borrow<Q>,
        Q: Hash + Eq + ToOwned<Owned = K> + ?Sized,
    {
        self.store_at(key, value, weight, self.clock.now())
    }

    /// As `store`, at a moment of the caller's clock, in milliseconds.
    ///
    /// ```
    /// # use rookdresser::{Loading, Setup};
    /// # use std::time::Duration;
    /// # let cache = Loading::<String, u64, std::io::Error>::open(&Setup::of(100).after_write(Duration::from_millis(10)))?;
    /// cache.store_at("a", 7, 1, 1000)?;
    /// assert_eq!(cache.look_at("a", 1005)?.as_deref(), Some(&7));
    /// # Ok::<(), Box<dyn std::error::Error>>(())
    /// ```
    pub fn store_at<Q>(&self, key: &Q, value: impl Into<Arc<V>>, weight: u32, now: u64) -> Result<(), Fault>
    where
        K: Borrow<Q>,
        Q: Hash + Eq + ToOwned<Owned = K> + ?Sized,
    {
        self.store_lived(key, value.into(), (weight, Life::NONE), now)
    }

    /// Stores the value under the key, with a life: the entry expires as that ends, or earlier by the setup's durations. No use lengthens
    /// it, and the next store of the key gives its entry another life, or none.
    ///
    /// A life counts in whole milliseconds, rounded up. 0 counts as one, and more than 2^32 - 1, which are 49 days, as none, so
    /// [`Duration::MAX`] does. If the setup has no duration, the cache reads its clock from the first such call on.
    ///
    /// ```
    /// # use rookdresser::{Loading, Setup};
    /// # use std::time::Duration;
    /// # let cache = Loading::<String, u64, std::io::Error>::open(&Setup::of(100))?;
    /// cache.store_for("a session", 7, 1, Duration::from_secs(60))?;
    /// assert_eq!(cache.look("a session")?.as_deref(), Some(&7));
    /// # Ok::<(), Box<dyn std::error::Error>>(())
    /// ```
    pub fn store_for<Q>(&self, key: &Q, value: impl Into<Arc<V>>, weight: u32, life: Duration) -> Result<(), Fault>
    where
        K: Borrow<Q>,
        Q: Hash + Eq + ToOwned<Owned = K> + ?Sized,
    {
        self.store_for_at(key, value, weight, life, self.clock.now_of_a_life())
    }

    /// As `store_for`, at a moment of the caller's clock, in milliseconds.
    ///
    /// ```
    /// # use rookdresser::{Loading, Setup};
    /// # use std::time::Duration;
    /// # let cache = Loading::<String, u64, std::io::Error>::open(&Setup::of(100))?;
    /// cache.store_for_at("a", 7, 1, Duration::from_millis(10), 1000)?;
    /// assert_eq!((cache.look_at("a", 1009)?, cache.look_at("a", 1010)?), (Some(7.into()), None));
    /// # Ok::<(), Box<dyn std::error::Error>>(())
    /// ```
    pub fn store_for_at<Q>(
        &self,
        key: &Q,
        value: impl Into<Arc<V>>,
        weight: u32,
        life: Duration,
        now: u64,
    ) -> Result<(), Fault>
    where
        K: Borrow<Q>,
        Q: Hash + Eq + ToOwned<Owned = K> + ?Sized,
    {
        self.store_lived(key, value.into(), (weight, Life::of(life)), now)
    }

    #[inline]
    fn store_lived<Q>(&self, key: &Q, value: Arc<V>, weight: (u32, Life), now: u64) -> Result<(), Fault>
    where
        K: Borrow<Q>,
        Q: Hash + Eq + ToOwned<Owned = K> + ?Sized,
    {
        let mut panics = Panics::default();
        let left = self.stored(key, value, weight, now, &mut panics)?;
        self.listener.release_into(left, &mut panics);
        panics.pass_on();
        Ok(())
    }

    /// Stores the value under the key, and returns what left. `store` doesn't, and takes less time.
    ///
    /// ```
    /// # use rookdresser::{Cause, Loading, Setup};
    /// # let cache = Loading::<String, u64, std::io::Error>::open(&Setup::of(100))?;
    /// assert_eq!(cache.put("a", 7, 1)?, []);
    /// let left = cache.put("a", 8, 1)?;
    /// assert_eq!((*left[0].value, left[0].cause), (7, Cause::Replaced));
    /// # Ok::<(), Box<dyn std::error::Error>>(())
    /// ```
    pub fn put<Q>(&self, key: &Q, value: impl Into<Arc<V>>, weight: u32) -> Result<Vec<Gone<K, V>>, Fault>
    where
        K: Borrow<Q>,
        Q: Hash + Eq + ToOwned<Owned = K> + ?Sized,
    {
        self.put_at(key, value, weight, self.clock.now())
    }

    /// As `put`, at a moment of the caller's clock, in milliseconds.
    ///
    /// ```
    /// # use rookdresser::{Cause, Loading, Setup};
    /// # use std::time::Duration;
    /// # let cache = Loading::<String, u64, std::io::Error>::open(&Setup::of(100).after_write(Duration::from_millis(10)))?;
    /// cache.put_at("a", 7, 1, 1000)?;
    /// assert_eq!(cache.put_at("a", 8, 1, 1010)?[0].cause, Cause::Expired);
    /// # Ok::<(), Box<dyn std::error::Error>>(())
    /// ```
    pub fn put_at<Q>(&self, key: &Q, value: impl Into<Arc<V>>, weight: u32, now: u64) -> Result<Vec<Gone<K, V>>, Fault>
    where
        K: Borrow<Q>,
        Q: Hash + Eq + ToOwned<Owned = K> + ?Sized,
    {
        let mut panics = Panics::default();
        let left = self.stored(key, value.into(), (weight, Life::NONE), now, &mut panics)?;
        Ok(self.listener.told(left, panics))
    }

    // Stores the value, and returns what left. A panic of the drop of what isn't needed is handed out; if the call is refused, it is
    // passed on.
    #[inline]
    fn stored<Q>(
        &self,
        key: &Q,
        value: Arc<V>,
        weight: (u32, Life),
        now: u64,
        panics: &mut Panics,
    ) -> Result<AllGone<K, V>, Fault>
    where
        K: Borrow<Q>,
        Q: Hash + Eq + ToOwned<Owned = K> + ?Sized,
    {
        let value = Guarded::of(value);
        let hash = self.hash(key);
        let value = match self.put_in_place(hash, key, value.take(), weight, now) {
            Ok(left) => return Ok(left),
            Err(value) => Guarded::of(value),
        };
        let (mut shard, place, cloned) = self.place(self.shard(hash).take(), hash, key);
        let mut left = AllOut::none();
        let put = shard.store.put(place, value.take(), weight, now, &mut left);
        let refused = match put {
            Ok(()) if cloned.is_none() => return Ok(shard.give_back(left)),
            Ok(()) => None,
            Err((fault, place, value)) => Some((shard.stats.refuse(fault), place, value)),
        };
        let left = shard.give_back(left);
        panics.of(|| drop(cloned));
        let Some((fault, place, value)) = refused else { return Ok(left) };
        panics.of(|| drop(place));
        panics.of(|| drop(value));
        std::mem::take(panics).pass_on();
        Err(fault)
    }
}
