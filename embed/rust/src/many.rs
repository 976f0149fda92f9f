//! A look-up of several keys. One call of the loader loads those that aren't there and that nobody else loads.
use crate::get::{shared, Sought};
use crate::life::Life;
use crate::listener::Listener;
use crate::loading::Loading;
use crate::loads::flight::{Flight, Outcome};
use crate::loads::lead::Lead;
use crate::panics::{Guarded, GuardedMap, Panics};
use crate::shard::AllGone;
use crate::{Fault, GetError};
use std::borrow::Borrow;
use std::collections::HashMap;
use std::hash::{BuildHasher, Hash};
use std::mem::take;
use std::sync::Arc;
use std::time::Duration;

impl<K: Hash + Eq, V, E, S: BuildHasher> Loading<K, V, E, S> {
    /// The values of several keys. Those that aren't there or are due, and that no other call loads, are loaded by one call of `load`.
    ///
    /// `load` gets these keys, and returns values with their weights; it is called again if they are more than `flights` allows. Then
    /// this call waits for the keys that others load. The loads are shared as those of [`get`](Loading::get) are. A key for which `load`
    /// returns nothing isn't in the map, unless its entry was due: then it has the old value. Others that wait for such a key ask again.
    /// What `load` returns for other keys is dropped.
    ///
    /// Errors are those of `get`, and in that order. `Load` comes if `load` fails and a key has no old value; all loads of that call of
    /// `load` have failed then. If it panics, they end and this call panics; whoever shares one asks again. Holds no lock while it loads
    /// or waits. Expected O(keys).
    ///
    /// ```
    /// # use rookdresser::{Loading, Setup};
    /// # let cache = Loading::<String, u64, std::io::Error>::open(&Setup::of(100))?;
    /// cache.store("a", 7, 1)?;
    /// let found = cache.get_many(["a", "b", "c"], |absent| {
    ///     assert_eq!(absent, ["b", "c"]);
    ///     Ok([("b".into(), (8, 2))].into()) // weighs 2, and there is no c
    /// })?;
    /// assert_eq!(found, [("a", 7.into()), ("b", 8.into())].into());
    /// # Ok::<(), Box<dyn std::error::Error>>(())
    /// ```
    pub fn get_many<'q, Q>(
        &self,
        keys: impl IntoIterator<Item = &'q Q>,
        load: impl FnMut(&[&'q Q]) -> Result<HashMap<K, (V, u32)>, E>,
    ) -> Result<HashMap<&'q Q, Arc<V>>, GetError<E>>
    where
        K: Borrow<Q>,
        Q: Hash + Eq + ToOwned<Owned = K> + ?Sized + 'q,
    {
        self.get_many_at(keys, self.clock.now(), load)
    }

    /// As `get_many`, with a loader that returns the values alone, each of which then weighs 1.
    ///
    /// ```
    /// # use rookdresser::{Loading, Setup};
    /// # let cache = Loading::<String, u64, std::io::Error>::open(&Setup::of(100))?;
    /// let load = |absent: &[&str]| absent.iter().map(|&path| Ok((path.into(), std::fs::read(path)?.len() as u64))).collect();
    /// let lengths = cache.try_get_many_with(["Cargo.toml", "build.rs"], load)?;
    /// assert_eq!(cache.look("build.rs")?.as_ref(), lengths.get("build.rs"));
    /// # Ok::<(), Box<dyn std::error::Error>>(())
    /// ```
    pub fn try_get_many_with<'q, Q>(
        &self,
        keys: impl IntoIterator<Item = &'q Q>,
        load: impl FnMut(&[&'q Q]) -> Result<HashMap<K, V>, E>,
    ) -> Result<HashMap<&'q Q, Arc<V>>, GetError<E>>
    where
        K: Borrow<Q>,
        Q: Hash + Eq + ToOwned<Owned = K> + ?Sized + 'q,
    {
        self.got_many(keys, self.clock.now(), load, |value| (value, 1))
    }

    /// As `get_many`, at a moment of the caller's clock, in milliseconds.
    ///
    /// ```
    /// # use rookdresser::{Loading, Setup};
    /// # use std::time::Duration;
    /// # let cache = Loading::<u64, u64, std::io::Error>::open(&Setup::of(100).after_write(Duration::from_millis(10)))?;
    /// // Entries expire after 10 milliseconds here.
    /// let squares = |absent: &[&u64]| Ok(absent.iter().map(|&&n| (n, (n * n, 1))).collect());
    /// assert_eq!(*cache.get_many_at(&[3, 4], 1000, squares)?[&4], 16);
    /// assert_eq!(cache.get_many_at(&[3, 4], 1009, |_| unreachable!("they are there"))?.len(), 2);
    /// assert_eq!(cache.get_many_at(&[3, 4], 1010, |_| Ok([].into()))?.len(), 0);
    /// # Ok::<(), Box<dyn std::error::Error>>(())
    /// ```
    pub fn get_many_at<'q, Q>(
        &self,
        keys: impl IntoIterator<Item = &'q Q>,
        now: u64,
        load: impl FnMut(&[&'q Q]) -> Result<HashMap<K, (V, u32)>, E>,
    ) -> Result<HashMap<&'q Q, Arc<V>>, GetError<E>>
    where
        K: Borrow<Q>,
        Q: Hash + Eq + ToOwned<Owned = K> + ?Sized + 'q,
    {
        self.got_many(keys, now, load, |loaded| loaded)
    }

    fn got_many<'q, Q, T>(
        &self,
        keys: impl IntoIterator<Item = &'q Q>,
        now: u64,
        load: impl FnMut(&[&'q Q]) -> Result<HashMap<K, T>, E>,
        weighed: impl Fn(T) -> (V, u32),
    ) -> Result<HashMap<&'q Q, Arc<V>>, GetError<E>>
    where
        K: Borrow<Q>,
        Q: Hash + Eq + ToOwned<Owned = K> + ?Sized + 'q,
    {
        let (mut load, mut many) = (Guarded::of(load), Many::of(keys));
        let got = loop {
            let mut batch = match Batch::begin(self, &mut many, now) {
                Ok(batch) => batch,
                Err(fault) => break Err(GetError::Refused(fault)),
            };
            if !batch.absent.is_empty() {
                let loaded = load.get_mut()(&batch.absent);
                if let Err(error) = batch.close(loaded, &weighed, &mut many) {
                    break Err(error);
                }
            }
            let mut joined = take(&mut batch.joined).into_iter();
            if let Err(error) = joined.try_for_each(|(key, of)| many.add(key, shared(of.get().wait()))) {
                break Err(error);
            }
            if many.rest.is_empty() {
                break Ok(());
            }
        };
        let mut panics = Panics::default();
        panics.of(|| drop(load));
        many.end(got, panics)
    }
}

/// The keys that are still to be looked up, and the values of the others.
pub(crate) struct Many<'q, Q: ?Sized, V> {
    pub(crate) rest: Vec<&'q Q>,
    found: GuardedMap<&'q Q, Arc<V>>,
}

impl<'q, Q: Hash + Eq + ?Sized, V> Many<'q, Q, V> {
    pub(crate) fn of(keys: impl IntoIterator<Item = &'q Q>) -> Self {
        let rest: Vec<_> = keys.into_iter().collect();
        Many { found: GuardedMap::of(HashMap::with_capacity(rest.len())), rest }
    }

    /// Adds what a caller gets of another's load. If it gets nothing, the key is to be looked up again.
    pub(crate) fn add<E>(&mut self, key: &'q Q, got: Option<Result<Arc<V>, GetError<E>>>) -> Result<(), GetError<E>> {
        match got {
            Some(Ok(value)) => self.found(key, value),
            Some(Err(error)) => return Err(error),
            None => self.rest.push(key),
        }
        Ok(())
    }

    fn found(&mut self, key: &'q Q, value: Arc<V>) {
        let value = Guarded::of(value);
        self.found.get_mut().entry(key).or_insert_with(|| value.take());
    }

    /// What a call returns, unless something has panicked.
    pub(crate) fn end<E>(
        self,
        got: Result<(), GetError<E>>,
        mut panics: Panics,
    ) -> Result<HashMap<&'q Q, Arc<V>>, GetError<E>> {
        match got {
            Ok(()) => panics.checked(Ok(self.found)).map(GuardedMap::take),
            Err(error) => {
                panics.of(|| drop(self.found));
                panics.checked(Err(error))
            }
        }
    }
}

// A key that another call loads.
type Joined<'q, Q, V, E> = (&'q Q, Guarded<Arc<Flight<V, E>>>);

/// The loads that a call for several keys has begun. If they are dropped before they are closed, they land as failed, and those who
/// joined ask again.
///
/// While they are open this thread's own load is the last of them, and each of the others waits for the next: whoever waits for one of
/// them waits for the loader.
pub(crate) struct Batch<'a, 'q, K, V, E, Q: ?Sized> {
    listener: &'a Listener<K, V>,
    /// The keys that are to be loaded.
    pub(crate) absent: Vec<&'q Q>,
    // The load of each.
    leads: Vec<Lead<'a, K, V, E>>,
    /// The keys that others load.
    pub(crate) joined: Vec<Joined<'q, Q, V, E>>,
    // What left by the look-ups that began no load.
    left: AllGone<K, V>,
}

impl<'a, 'q, K: Hash + Eq, V, E, Q> Batch<'a, 'q, K, V, E, Q>
where
    K: Borrow<Q>,
    Q: Hash + Eq + ToOwned<Owned = K> + ?Sized,
{
    /// Looks the keys up, and begins the loads, up to the first key that finds too many of them open.
    pub(crate) fn begin<S: BuildHasher>(
        cache: &'a Loading<K, V, E, S>,
        many: &mut Many<'q, Q, V>,
        now: u64,
    ) -> Result<Self, Fault> {
        let (absent, leads, joined) = (Vec::new(), Vec::new(), Vec::new());
        let mut batch = Batch { listener: &cache.listener, absent, leads, joined, left: AllGone::none() };
        let keys = take(&mut many.rest);
        for (at, &key) in keys.iter().enumerate() {
            match cache.seek_one(key, now, &mut batch.left) {
                Ok(Sought::Value(value)) => many.found(key, value),
                Ok(Sought::Join(flight)) => batch.joined.push((key, Guarded::of(flight))),
                Ok(Sought::Lead(lead)) => {
                    batch.absent.push(key);
                    batch.leads.push(lead);
                }
                Err(Fault::TooManyFlights) if !batch.leads.is_empty() => {
                    many.rest.extend(&keys[at..]);
                    break;
                }
                Err(fault) => return Err(fault),
            }
        }
        if batch.leads.is_empty() {
            batch.listener.release(take(&mut batch.left));
        }
        Ok(batch)
    }

    /// Ends the loads with what the loader returned. The error is for a key that has no old value.
    pub(crate) fn close<T>(
        &mut self,
        loaded: Result<HashMap<K, T>, E>,
        weighed: impl Fn(T) -> (V, u32),
        many: &mut Many<'q, Q, V>,
    ) -> Result<(), GetError<E>> {
        let (mut loaded, error) = match loaded {
            Ok(loaded) => (GuardedMap::of(loaded), None),
            Err(error) => (GuardedMap::of(HashMap::new()), Some(Guarded::of(Arc::new(error)))),
        };
        let (mut values, mut keys, mut is_without) = (Vec::with_capacity(self.absent.len()), Vec::new(), false);
        for (&key, lead) in self.absent.iter().zip(&self.leads) {
            let value = loaded.get_mut().remove_entry(key).map(|(own, value)| {
                keys.push(Guarded::of(own));
                let (value, weight) = weighed(value);
                (Guarded::of(Arc::new(value)), weight)
            });
            match (&value, &lead.old) {
                (Some((value, _)), _) => many.found(key, value.get().clone()),
                (None, Some(old)) => many.found(key, old.clone()),
                (None, None) => is_without = true,
            }
            values.push(value);
        }
        let mut panics = Panics::default();
        self.land(values.into_iter(), error.as_ref().map(Guarded::get), &mut panics);
        for key in keys {
            panics.of(|| drop(key));
        }
        panics.of(|| drop(loaded));
        match error {
            Some(error) if is_without => panics.checked(Err(GetError::Load(error.take()))),
            error => {
                panics.of(|| drop(error));
                panics.checked(Ok(()))
            }
        }
    }
}

impl<K, V, E, Q: ?Sized> Batch<'_, '_, K, V, E, Q> {
    /// Makes a call that is part of all loads, which are paused.
    pub(crate) fn during<T>(&mut self, call: impl FnOnce() -> T) -> T {
        struct Pauses<'b, 'a, K, V, E>(&'b mut [Lead<'a, K, V, E>]);
        impl<K, V, E> Drop for Pauses<'_, '_, K, V, E> {
            fn drop(&mut self) {
                self.0.iter_mut().rev().for_each(|lead| lead.making.pause());
            }
        }
        self.leads.iter_mut().for_each(|lead| lead.making.go_on());
        let _pauses = Pauses(&mut self.leads);
        call()
    }

    /// Nobody makes the loads for now.
    pub(crate) fn pause(&mut self) {
        self.leads.iter_mut().rev().for_each(|lead| lead.making.pause());
    }

    // Lands each load with its value, or as failed. Once all of them have landed, whoever waits is told, then the listener, and what is
    // needed no longer is dropped: any of them may use the cache.
    fn land(
        &mut self,
        mut values: impl Iterator<Item = Option<(Guarded<Arc<V>>, u32)>>,
        error: Option<&Arc<E>>,
        panics: &mut Panics,
    ) {
        self.pause();
        let (mut landings, mut told) = (Vec::with_capacity(self.leads.len()), Vec::new());
        // They take their time together, which counts once.
        let mut took = self.leads.first().map_or(Duration::ZERO, |lead| lead.begun.elapsed());
        for mut lead in take(&mut self.leads) {
            lead.making.end();
            let old = lead.old.take();
            let value = values.next().flatten().map(|(value, weight)| (value.take(), weight, Life::NONE));
            let outcome = match (&value, error) {
                (Some((value, ..)), _) => Outcome::Value(value.clone()),
                (None, Some(error)) => Outcome::Failed(error.clone()),
                (None, None) => Outcome::Again,
            };
            let mut landing = lead.landed(value, take(&mut took));
            // It owns nothing more, and has landed.
            std::mem::forget(lead);
            told.push((landing.flight.take(), outcome));
            landings.push((landing, old));
        }
        for (flight, outcome) in told {
            if let Some(flight) = flight {
                flight.tell(outcome, panics);
                panics.of(|| drop(flight));
            } else {
                panics.of(|| drop(outcome));
            }
        }
        self.listener.release_into(take(&mut self.left), panics);
        for (landing, old) in landings {
            landing.release_into(self.listener, panics);
            panics.of(|| drop(old));
        }
    }
}

// The loader panicked, its future was dropped, or a look-up was refused.
impl<K, V, E, Q: ?Sized> Drop for Batch<'_, '_, K, V, E, Q> {
    fn drop(&mut self) {
        let mut panics = Panics::default();
        self.land(std::iter::empty(), None, &mut panics);
        panics.pass_on();
    }
}
