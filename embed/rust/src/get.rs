//! A look-up that loads what isn't there.
use crate::life::Life;
use crate::loading::Loading;
use crate::loads::flight::{Flight, Outcome};
use crate::loads::lead::Lead;
use crate::loads::waits::{new_number, Making, WaitsForItself};
use crate::panics::{Guarded, Panics};
use crate::plain::are_plain;
use crate::reads::shared::Locked;
use crate::shard::AllGone;
use crate::table::Place;
use crate::{Fault, Found, GetError};
use std::borrow::Borrow;
use std::hash::{BuildHasher, Hash};
use std::sync::Arc;
use std::time::{Duration, Instant};

// What a seek found.
pub(crate) enum Sought<'a, K, V, E> {
    Value(Arc<V>),
    Join(Arc<Flight<V, E>>),
    Lead(Lead<'a, K, V, E>),
}

/// What a caller gets of another's load; nothing if it asks again.
pub(crate) fn shared<V, E>(told: Result<Outcome<V, E>, WaitsForItself>) -> Option<Result<Arc<V>, GetError<E>>> {
    match told {
        Ok(Outcome::Value(value)) => Some(Ok(value)),
        Ok(Outcome::Failed(error)) => Some(Err(GetError::Load(error))),
        Ok(Outcome::Again) => None,
        Err(WaitsForItself) => Some(Err(GetError::WaitsForItself)),
    }
}

impl<K: Hash + Eq, V, E, S: BuildHasher> Loading<K, V, E, S> {
    /// The key's value; if there is none, that of one load, which all who ask meanwhile share.
    ///
    /// `load` returns the value and its weight. The value's age counts from this call, not from the end of the load. A due entry is
    /// loaded again by the first who asks, in its own thread: it is given the new value, or the old one if that load fails; the
    /// others get the old value meanwhile. If the loader panics, its caller gets the panic, and those who shared the load ask again.
    ///
    /// ```
    /// # use rookdresser::{Loading, Setup};
    /// # let cache = Loading::<String, u64, std::io::Error>::open(&Setup::of(100))?;
    /// let load = || std::fs::read_to_string("Cargo.toml").map(|text| (text.len() as u64, 2)); // weighs 2
    /// let length = cache.get("Cargo.toml", load)?;
    /// assert_eq!(cache.get("Cargo.toml", || unreachable!("it is there"))?, length);
    /// # Ok::<(), Box<dyn std::error::Error>>(())
    /// ```
    pub fn get<Q>(&self, key: &Q, load: impl FnOnce() -> Result<(V, u32), E>) -> Result<Arc<V>, GetError<E>>
    where
        K: Borrow<Q>,
        Q: Hash + Eq + ToOwned<Owned = K> + ?Sized,
    {
        self.get_at(key, self.clock.now(), load)
    }

    /// As `get`, of which it returns a copy of the value. No thread that hits writes a count of the value's shares, as in
    /// [`look_copied`](Loading::look_copied).
    ///
    /// ```
    /// # use rookdresser::{Loading, Setup};
    /// # let cache = Loading::<String, u64, std::io::Error>::open(&Setup::of(100))?;
    /// assert_eq!(cache.get_copied("a", || Ok((7, 1)))?, 7);
    /// assert_eq!(cache.get_copied("a", || unreachable!("it is there"))?, 7);
    /// # Ok::<(), Box<dyn std::error::Error>>(())
    /// ```
    pub fn get_copied<Q>(&self, key: &Q, load: impl FnOnce() -> Result<(V, u32), E>) -> Result<V, GetError<E>>
    where
        K: Borrow<Q>,
        Q: Hash + Eq + ToOwned<Owned = K> + ?Sized,
        V: Copy,
    {
        self.get_copied_at(key, self.clock.now(), load)
    }

    /// As `get_copied`, at a moment of the caller's clock, in milliseconds.
    ///
    /// ```
    /// # use rookdresser::{Loading, Setup};
    /// # use std::time::Duration;
    /// # let cache = Loading::<String, u64, std::io::Error>::open(&Setup::of(100).after_write(Duration::from_millis(10)))?;
    /// // Entries expire after 10 milliseconds here.
    /// assert_eq!(cache.get_copied_at("a", 1000, || Ok((7, 1)))?, 7);
    /// assert_eq!(cache.get_copied_at("a", 1010, || Ok((8, 1)))?, 8);
    /// # Ok::<(), Box<dyn std::error::Error>>(())
    /// ```
    pub fn get_copied_at<Q>(
        &self,
        key: &Q,
        now: u64,
        load: impl FnOnce() -> Result<(V, u32), E>,
    ) -> Result<V, GetError<E>>
    where
        K: Borrow<Q>,
        Q: Hash + Eq + ToOwned<Owned = K> + ?Sized,
        V: Copy,
    {
        let load = Guarded::of(load);
        if let Some(value) = self.hit_without_lock(self.hash(key), key, now, |value| value.copied()) {
            let mut panics = Panics::default();
            panics.of(|| drop(load));
            return panics.checked(Ok(value));
        }
        self.get_at(key, now, load.take()).map(|value| *value)
    }

    /// As `get`, with a loader that returns the value alone, which then weighs 1.
    ///
    /// ```
    /// # use rookdresser::{Loading, Setup};
    /// # let cache = Loading::<String, u64, std::io::Error>::open(&Setup::of(100))?;
    /// let length = cache.try_get_with("Cargo.toml", || Ok(std::fs::read("Cargo.toml")?.len() as u64))?;
    /// assert_eq!(cache.look("Cargo.toml")?, Some(length));
    /// # Ok::<(), Box<dyn std::error::Error>>(())
    /// ```
    pub fn try_get_with<Q>(&self, key: &Q, load: impl FnOnce() -> Result<V, E>) -> Result<Arc<V>, GetError<E>>
    where
        K: Borrow<Q>,
        Q: Hash + Eq + ToOwned<Owned = K> + ?Sized,
    {
        self.get(key, || Ok((load()?, 1)))
    }

    /// As `try_get_with`, with a loader that doesn't fail. A load by another call, which this one joins, may fail all the same.
    ///
    /// ```
    /// # use rookdresser::{Loading, Setup};
    /// # let cache = Loading::<String, u64, std::io::Error>::open(&Setup::of(100))?;
    /// assert_eq!(*cache.get_with("a", || 7)?, 7);
    /// assert_eq!(*cache.get_with("a", || unreachable!("it is there"))?, 7);
    /// # Ok::<(), Box<dyn std::error::Error>>(())
    /// ```
    pub fn get_with<Q>(&self, key: &Q, load: impl FnOnce() -> V) -> Result<Arc<V>, GetError<E>>
    where
        K: Borrow<Q>,
        Q: Hash + Eq + ToOwned<Owned = K> + ?Sized,
    {
        self.get(key, || Ok((load(), 1)))
    }

    /// As `get`, at a moment of the caller's clock, in milliseconds.
    ///
    /// ```
    /// # use rookdresser::{Loading, Setup};
    /// # use std::time::Duration;
    /// # let cache = Loading::<String, u64, std::io::Error>::open(&Setup::of(100).after_write(Duration::from_millis(10)))?;
    /// // Entries expire after 10 milliseconds here.
    /// assert_eq!(*cache.get_at("a", 1000, || Ok((7, 1)))?, 7);
    /// assert_eq!(*cache.get_at("a", 1010, || Ok((8, 1)))?, 8);
    /// # Ok::<(), Box<dyn std::error::Error>>(())
    /// ```
    pub fn get_at<Q>(
        &self,
        key: &Q,
        now: u64,
        load: impl FnOnce() -> Result<(V, u32), E>,
    ) -> Result<Arc<V>, GetError<E>>
    where
        K: Borrow<Q>,
        Q: Hash + Eq + ToOwned<Owned = K> + ?Sized,
    {
        self.get_lived(key, now, load, |(value, weight)| (value, weight, Life::NONE))
    }

    /// As `get`, with a loader that also returns the value's life: the entry expires as that ends, or earlier by the setup's durations. It
    /// begins with this call, as the value's age does, and counts as that of [`store_for`](Loading::store_for).
    ///
    /// ```
    /// # use rookdresser::{Loading, Setup};
    /// # use std::time::Duration;
    /// # let cache = Loading::<String, u64, std::io::Error>::open(&Setup::of(100))?;
    /// let max_age = Duration::from_secs(60); // of an answer by HTTP
    /// assert_eq!(*cache.get_for("a", || Ok((7, 1, max_age)))?, 7);
    /// # Ok::<(), Box<dyn std::error::Error>>(())
    /// ```
    pub fn get_for<Q>(
        &self,
        key: &Q,
        load: impl FnOnce() -> Result<(V, u32, Duration), E>,
    ) -> Result<Arc<V>, GetError<E>>
    where
        K: Borrow<Q>,
        Q: Hash + Eq + ToOwned<Owned = K> + ?Sized,
    {
        self.get_for_at(key, self.clock.now_of_a_life(), load)
    }

    /// As `get_for`, at a moment of the caller's clock, in milliseconds.
    ///
    /// ```
    /// # use rookdresser::{Loading, Setup};
    /// # use std::time::Duration;
    /// # let cache = Loading::<String, u64, std::io::Error>::open(&Setup::of(100))?;
    /// cache.get_for_at("a", 1000, || Ok((7, 1, Duration::from_millis(10))))?;
    /// assert_eq!((cache.look_at("a", 1009)?, cache.look_at("a", 1010)?), (Some(7.into()), None));
    /// # Ok::<(), Box<dyn std::error::Error>>(())
    /// ```
    pub fn get_for_at<Q>(
        &self,
        key: &Q,
        now: u64,
        load: impl FnOnce() -> Result<(V, u32, Duration), E>,
    ) -> Result<Arc<V>, GetError<E>>
    where
        K: Borrow<Q>,
        Q: Hash + Eq + ToOwned<Owned = K> + ?Sized,
    {
        self.get_lived(key, now, load, |(value, weight, life)| (value, weight, Life::of(life)))
    }

    #[inline]
    fn get_lived<Q, M>(
        &self,
        key: &Q,
        now: u64,
        load: impl FnOnce() -> Result<M, E>,
        lived: impl FnOnce(M) -> (V, u32, Life),
    ) -> Result<Arc<V>, GetError<E>>
    where
        K: Borrow<Q>,
        Q: Hash + Eq + ToOwned<Owned = K> + ?Sized,
    {
        let load = Guarded::of(load);
        let hash = self.hash(key);
        let got = loop {
            match self.seek(hash, key, now) {
                Ok(Sought::Value(value)) => break Ok(value),
                Ok(Sought::Lead(lead)) => return lead.close((load.take())().map(lived)),
                Ok(Sought::Join(flight)) => {
                    if let Some(got) = shared(flight.wait()) {
                        break got;
                    }
                }
                Err(fault) => break Err(GetError::Refused(fault)),
            }
        };
        let mut panics = Panics::default();
        panics.of(|| drop(load));
        panics.checked(got)
    }

    #[inline(always)]
    pub(crate) fn seek<Q>(&self, hash: u64, key: &Q, now: u64) -> Result<Sought<'_, K, V, E>, Fault>
    where
        K: Borrow<Q>,
        Q: Hash + Eq + ToOwned<Owned = K> + ?Sized,
    {
        let shard = match self.hit(hash, key, now) {
            Ok(value) => return Ok(Sought::Value(value)),
            Err(shard) => shard,
        };
        if are_plain::<K, Q>() {
            let (shard, place, _) = self.place(shard, hash, key);
            return self.sought(shard, hash, place, now);
        }
        self.seek_unlocked(shard, hash, key, now)
    }

    // The same of a key that is compared and cloned while the lock is given back.
    fn seek_unlocked<'a, Q>(
        &'a self,
        mut shard: Locked<'a, K, V, E>,
        hash: u64,
        key: &Q,
        now: u64,
    ) -> Result<Sought<'a, K, V, E>, Fault>
    where
        K: Borrow<Q>,
        Q: Hash + Eq + ToOwned<Owned = K> + ?Sized,
    {
        if let Some((row, at)) = self.only(&shard, hash) {
            let sought = self.sought(shard, hash, Place::At(at), now);
            // A load that was opened for another key lands as failed as it is dropped.
            if let Some(sought) = self.is_of(row, key, sought) {
                return sought;
            }
            shard = self.shard(hash).take();
        }
        let (shard, place, cloned) = self.place(shard, hash, key);
        let sought = self.sought(shard, hash, place, now);
        let mut panics = Panics::default();
        panics.of(|| drop(cloned));
        panics.checked(sought)
    }

    #[inline(always)]
    fn sought<'a>(
        &'a self,
        mut shard: Locked<'a, K, V, E>,
        hash: u64,
        place: Place<K>,
        now: u64,
    ) -> Result<Sought<'a, K, V, E>, Fault> {
        match shard.store.seek(&place, now) {
            Ok(Found::Hit(token)) => {
                let value = shard.hit(token);
                Ok(Sought::Value(self.give_back(shard, value)))
            }
            Ok(found) => Ok(self.joined_or_led(shard, hash, place, now, found, None)),
            Err(fault) => Err(shard.stats.refuse(fault)),
        }
    }

    /// A seek that is one of several. What left by one that begins no load is added to `held`, so that it is told once all loads
    /// have landed.
    pub(crate) fn seek_one<Q>(&self, key: &Q, now: u64, held: &mut AllGone<K, V>) -> Result<Sought<'_, K, V, E>, Fault>
    where
        K: Borrow<Q>,
        Q: Hash + Eq + ToOwned<Owned = K> + ?Sized,
    {
        let hash = self.hash(key);
        let shard = match self.hit(hash, key, now) {
            Ok(value) => return Ok(Sought::Value(value)),
            Err(shard) => shard,
        };
        let (mut shard, place, cloned) = self.place(shard, hash, key);
        let sought = match shard.store.seek(&place, now) {
            Ok(Found::Hit(token)) => {
                let (value, left) = (shard.hit(token), shard.store.left());
                held.take_in(shard.give_back(left));
                Ok(Sought::Value(value))
            }
            Ok(found) => Ok(self.joined_or_led(shard, hash, place, now, found, Some(held))),
            Err(fault) => {
                let fault = shard.stats.refuse(fault);
                drop(shard);
                drop(place);
                Err(fault)
            }
        };
        let mut panics = Panics::default();
        panics.of(|| drop(cloned));
        panics.checked(sought)
    }

    #[inline(never)]
    fn joined_or_led<'a>(
        &'a self,
        mut shard: Locked<'a, K, V, E>,
        hash: u64,
        place: Place<K>,
        now: u64,
        found: Found,
        held: Option<&mut AllGone<K, V>>,
    ) -> Sought<'a, K, V, E> {
        let (id, old) = match found {
            Found::Lead(id) => {
                shard.stats.misses += 1;
                (id, None)
            }
            Found::HitLead(token, id) => {
                shard.stats.hits += 1;
                shard.stats.refreshes += 1;
                (id, Some(shard.value(token)))
            }
            _ => {
                shard.stats.misses += 1;
                shard.stats.joins += 1;
                let flight = shard.joined(&place);
                let Some(held) = held else { return Sought::Join(self.give_back(shard, flight)) };
                let left = shard.store.left();
                held.take_in(shard.give_back(left));
                return Sought::Join(flight);
            }
        };
        let at = shard.store.table.open(place);
        let number = new_number();
        let load = shard.led(at, number);
        let left = if shard.store.has_left() { Some(shard.store.left()) } else { None };
        let left = match left {
            Some(left) => Some(Box::new(shard.give_back(left))),
            None => {
                drop(shard);
                None
            }
        };
        let (listener, shard, begun) = (&self.listener, self.shard(hash), Instant::now());
        Sought::Lead(Lead { listener, shard, id, making: Making::begin(number), load, at, now, old, left, begun })
    }
}
