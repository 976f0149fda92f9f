//! The same cache for tasks: a `get` waits by `await`, on any runtime.
use crate::get::{shared, Sought};
use crate::life::Life;
use crate::loads::flight::Joined;
use crate::many::{Batch, Many};
use crate::panics::{Guarded, Panics};
use crate::{GetError, OpenError, Setup};
use std::borrow::Borrow;
use std::collections::hash_map::RandomState;
use std::collections::HashMap;
use std::fmt::{Debug, Formatter};
use std::future::{poll_fn, Future};
use std::hash::{BuildHasher, Hash};
use std::mem::take;
use std::ops::Deref;
use std::pin::{pin, Pin};
use std::sync::Arc;
use std::time::Duration;

/// A handle of a [`rookdresser::Loading`](crate::Loading) whose `get` waits by `await`. To clone it is cheap.
///
/// All other calls are those of [`rookdresser::Loading`](crate::Loading), since none of them waits for a load: `look`, `store`,
/// `drop_key` and so on. [`blocking`](Loading::blocking) returns it for threads. A load is shared by tasks and threads alike.
///
/// No lock is held while a task waits, nor while a waker is called, cloned or dropped. The futures are `Send` if keys, values, errors
/// and the loader's future are `Send` and `Sync` as far as they are shared.
///
/// ```
/// # use rookdresser::{future::Loading, Setup};
/// # mod runtime { include!(concat!(env!("CARGO_MANIFEST_DIR"), "/tests/common/block_on.rs")); }
/// # runtime::block_on(async {
/// let cache = Loading::<String, String, std::io::Error>::open(&Setup::of(1000))?;
/// let page = cache.get_with("a page", async { "its text".into() }).await?;
/// assert_eq!(cache.look("a page")?, Some(page));
/// # Ok::<(), Box<dyn std::error::Error>>(())
/// # }).unwrap();
/// ```
pub struct Loading<K, V, E, S = RandomState>(Arc<crate::Loading<K, V, E, S>>);

impl<K, V, E> Loading<K, V, E> {
    /// As [`rookdresser::Loading::open`](crate::Loading::open).
    ///
    /// If the cache is to have a listener, shards or a hasher of yours, open it as a [`rookdresser::Loading`](crate::Loading), and make
    /// a handle by `from`. `BadSetup`, then `OutOfMemory`.
    ///
    /// ```
    /// use rookdresser::{future, Loading, Setup};
    ///
    /// let cache = future::Loading::<u64, u64, ()>::open(&Setup::of(1000))?;
    /// let listened = Loading::<u64, u64, ()>::open(&Setup::of(1000))?.with_listener(|left| println!("{left:?}"));
    /// let listened = future::Loading::from(listened);
    /// # Ok::<(), rookdresser::OpenError>(())
    /// ```
    pub fn open(setup: &Setup) -> Result<Self, OpenError> {
        crate::Loading::open(setup).map(Self::from)
    }
}

impl<K, V, E, S> Loading<K, V, E, S> {
    /// The same cache for threads. There a `get` blocks its thread while a load runs, so no task should call it.
    ///
    /// ```
    /// # use rookdresser::{future::Loading, Setup};
    /// let cache = Loading::<u64, u64, ()>::open(&Setup::of(100))?;
    /// let threads = cache.blocking().clone();
    /// std::thread::spawn(move || threads.get_with(&1, || 7).unwrap()).join().unwrap();
    /// assert_eq!(cache.look(&1)?.as_deref(), Some(&7));
    /// # Ok::<(), Box<dyn std::error::Error>>(())
    /// ```
    pub fn blocking(&self) -> &Arc<crate::Loading<K, V, E, S>> {
        &self.0
    }
}

impl<K: Hash + Eq, V, E, S: BuildHasher> Loading<K, V, E, S> {
    /// The key's value; if there is none, that of one load, which all who ask meanwhile share.
    ///
    /// `load` returns the value and its weight. Only the `load` of the task that asked first is polled; those of the others are dropped.
    /// A hit is ready at the first poll. The value's age counts from that poll. A due entry is loaded again by the task that asks first,
    /// which gets the new value, or the old one if that load fails; the others get the old value meanwhile.
    ///
    /// The call may be dropped at any time. If that ends a load, or its loader panics, the load has failed without an error, and those
    /// who share it ask again: one of them runs its own `load`, and the others share that. The loader's own task gets the panic.
    ///
    /// Errors, in this order: `Refused` if the cache refuses the look-up; `WaitsForItself` if a loader polls this call, and the key's load
    /// waits for the load of that loader; `Load` if the load failed, for all who shared it. If a loader waits for a task that it has
    /// spawned, the cache can't know that. What a loader has polled counts as awaited by it until that is done or dropped.
    ///
    /// Takes the lock of the key's shard, or of a part of it, and holds none while it waits. Expected O(1), and for a load that was shared
    /// O(tasks that share it).
    ///
    /// Not promised: that the call ends if the call that loads is neither polled nor dropped.
    ///
    /// ```
    /// # use rookdresser::{future::Loading, Setup};
    /// # mod runtime { include!(concat!(env!("CARGO_MANIFEST_DIR"), "/tests/common/block_on.rs")); }
    /// # runtime::block_on(async {
    /// # let cache = Loading::<String, u64, std::io::Error>::open(&Setup::of(100))?;
    /// let length = cache.get("a", async { Ok((7, 2)) }).await?; // weighs 2
    /// assert_eq!((*length, cache.numbers().weight), (7, 2));
    /// # Ok::<(), Box<dyn std::error::Error>>(())
    /// # }).unwrap();
    /// ```
    pub async fn get<Q>(&self, key: &Q, load: impl Future<Output = Result<(V, u32), E>>) -> Result<Arc<V>, GetError<E>>
    where
        K: Borrow<Q>,
        Q: Hash + Eq + ToOwned<Owned = K> + ?Sized,
    {
        self.get_at(key, self.0.clock.now(), load).await
    }

    /// As `get`, with a loader that returns the value alone, which then weighs 1.
    ///
    /// ```
    /// # use rookdresser::{future::Loading, Setup};
    /// # mod runtime { include!(concat!(env!("CARGO_MANIFEST_DIR"), "/tests/common/block_on.rs")); }
    /// # runtime::block_on(async {
    /// # let cache = Loading::<String, u64, std::io::Error>::open(&Setup::of(100))?;
    /// let length = cache.try_get_with("Cargo.toml", async { Ok(std::fs::read("Cargo.toml")?.len() as u64) }).await?;
    /// assert_eq!(cache.look("Cargo.toml")?, Some(length));
    /// # Ok::<(), Box<dyn std::error::Error>>(())
    /// # }).unwrap();
    /// ```
    pub async fn try_get_with<Q>(
        &self,
        key: &Q,
        load: impl Future<Output = Result<V, E>>,
    ) -> Result<Arc<V>, GetError<E>>
    where
        K: Borrow<Q>,
        Q: Hash + Eq + ToOwned<Owned = K> + ?Sized,
    {
        self.get(key, async { Ok((load.await?, 1)) }).await
    }

    /// As `try_get_with`, with a loader that doesn't fail. A load by another call, which this one joins, may fail all the same.
    ///
    /// ```
    /// # use rookdresser::{future::Loading, Setup};
    /// # mod runtime { include!(concat!(env!("CARGO_MANIFEST_DIR"), "/tests/common/block_on.rs")); }
    /// # runtime::block_on(async {
    /// # let cache = Loading::<String, u64, std::io::Error>::open(&Setup::of(100))?;
    /// assert_eq!(*cache.get_with("a", async { 7 }).await?, 7);
    /// assert_eq!(*cache.get_with("a", async { unreachable!("it is there") }).await?, 7);
    /// # Ok::<(), Box<dyn std::error::Error>>(())
    /// # }).unwrap();
    /// ```
    pub async fn get_with<Q>(&self, key: &Q, load: impl Future<Output = V>) -> Result<Arc<V>, GetError<E>>
    where
        K: Borrow<Q>,
        Q: Hash + Eq + ToOwned<Owned = K> + ?Sized,
    {
        self.get(key, async { Ok((load.await, 1)) }).await
    }

    /// As `get`, at a moment of the caller's clock, in milliseconds.
    ///
    /// ```
    /// # use rookdresser::{future::Loading, Setup};
    /// # use std::time::Duration;
    /// # mod runtime { include!(concat!(env!("CARGO_MANIFEST_DIR"), "/tests/common/block_on.rs")); }
    /// # runtime::block_on(async {
    /// # let cache = Loading::<String, u64, std::io::Error>::open(&Setup::of(100).after_write(Duration::from_millis(10)))?;
    /// // Entries expire after 10 milliseconds here.
    /// assert_eq!(*cache.get_at("a", 1000, async { Ok((7, 1)) }).await?, 7);
    /// assert_eq!(*cache.get_at("a", 1010, async { Ok((8, 1)) }).await?, 8);
    /// # Ok::<(), Box<dyn std::error::Error>>(())
    /// # }).unwrap();
    /// ```
    pub async fn get_at<Q>(
        &self,
        key: &Q,
        now: u64,
        load: impl Future<Output = Result<(V, u32), E>>,
    ) -> Result<Arc<V>, GetError<E>>
    where
        K: Borrow<Q>,
        Q: Hash + Eq + ToOwned<Owned = K> + ?Sized,
    {
        self.get_lived(key, now, load, |(value, weight)| (value, weight, Life::NONE)).await
    }

    /// As `get`, with a loader that also returns the value's life: the entry expires as that ends, or earlier by the setup's durations. It
    /// begins with the first poll, as the value's age does, and counts as that of [`store_for`](crate::Loading::store_for).
    ///
    /// ```
    /// # use rookdresser::{future::Loading, Setup};
    /// # use std::time::Duration;
    /// # mod runtime { include!(concat!(env!("CARGO_MANIFEST_DIR"), "/tests/common/block_on.rs")); }
    /// # runtime::block_on(async {
    /// # let cache = Loading::<String, u64, std::io::Error>::open(&Setup::of(100))?;
    /// let max_age = Duration::from_secs(60); // of an answer by HTTP
    /// assert_eq!(*cache.get_for("a", async { Ok((7, 1, max_age)) }).await?, 7);
    /// # Ok::<(), Box<dyn std::error::Error>>(())
    /// # }).unwrap();
    /// ```
    pub async fn get_for<Q>(
        &self,
        key: &Q,
        load: impl Future<Output = Result<(V, u32, Duration), E>>,
    ) -> Result<Arc<V>, GetError<E>>
    where
        K: Borrow<Q>,
        Q: Hash + Eq + ToOwned<Owned = K> + ?Sized,
    {
        self.get_for_at(key, self.0.clock.now_of_a_life(), load).await
    }

    /// As `get_for`, at a moment of the caller's clock, in milliseconds.
    ///
    /// ```
    /// # use rookdresser::{future::Loading, Setup};
    /// # use std::time::Duration;
    /// # mod runtime { include!(concat!(env!("CARGO_MANIFEST_DIR"), "/tests/common/block_on.rs")); }
    /// # runtime::block_on(async {
    /// # let cache = Loading::<String, u64, std::io::Error>::open(&Setup::of(100))?;
    /// cache.get_for_at("a", 1000, async { Ok((7, 1, Duration::from_millis(10))) }).await?;
    /// assert_eq!((cache.look_at("a", 1009)?, cache.look_at("a", 1010)?), (Some(7.into()), None));
    /// # Ok::<(), Box<dyn std::error::Error>>(())
    /// # }).unwrap();
    /// ```
    pub async fn get_for_at<Q>(
        &self,
        key: &Q,
        now: u64,
        load: impl Future<Output = Result<(V, u32, Duration), E>>,
    ) -> Result<Arc<V>, GetError<E>>
    where
        K: Borrow<Q>,
        Q: Hash + Eq + ToOwned<Owned = K> + ?Sized,
    {
        self.get_lived(key, now, load, |(value, weight, life)| (value, weight, Life::of(life))).await
    }

    async fn get_lived<Q, M>(
        &self,
        key: &Q,
        now: u64,
        load: impl Future<Output = Result<M, E>>,
        lived: fn(M) -> (V, u32, Life),
    ) -> Result<Arc<V>, GetError<E>>
    where
        K: Borrow<Q>,
        Q: Hash + Eq + ToOwned<Owned = K> + ?Sized,
    {
        let mut load = Loader(pin!(Some(load)));
        let hash = self.0.hash(key);
        let got = loop {
            match self.0.seek(hash, key, now) {
                Ok(Sought::Value(value)) => break Ok(value),
                Ok(Sought::Lead(mut lead)) => {
                    lead.making.pause();
                    let made = poll_fn(|context| lead.making.during(|| load.get().poll(context))).await;
                    break lead.close(made.map(lived));
                }
                Ok(Sought::Join(flight)) => {
                    let told = Joined::of(flight).await;
                    if let Some(got) = shared(told) {
                        break got;
                    }
                }
                Err(fault) => break Err(GetError::Refused(fault)),
            }
        };
        let mut panics = Panics::default();
        panics.of(|| load.0.set(None));
        panics.checked(got)
    }

    /// The values of several keys. Those that aren't there or are due, and that no other call loads, are loaded by one call of `load`.
    ///
    /// As [`rookdresser::Loading::get_many`](crate::Loading::get_many), but that `load` returns a future, and that this call waits by
    /// `await`. It may be dropped at any time, as a call of [`get`](Loading::get): its loads have failed then, and those who share them ask
    /// again. Errors are those of `get`.
    ///
    /// ```
    /// # use rookdresser::{future::Loading, Setup};
    /// # mod runtime { include!(concat!(env!("CARGO_MANIFEST_DIR"), "/tests/common/block_on.rs")); }
    /// # runtime::block_on(async {
    /// # let cache = Loading::<String, u64, std::io::Error>::open(&Setup::of(100))?;
    /// cache.store("a", 7, 1)?;
    /// let found = cache.get_many(["a", "b"], |absent| async move {
    ///     assert_eq!(absent, ["b"]);
    ///     Ok([("b".into(), (8, 2))].into()) // weighs 2
    /// }).await?;
    /// assert_eq!(found, [("a", 7.into()), ("b", 8.into())].into());
    /// # Ok::<(), Box<dyn std::error::Error>>(())
    /// # }).unwrap();
    /// ```
    pub async fn get_many<'q, Q, F>(
        &self,
        keys: impl IntoIterator<Item = &'q Q>,
        load: impl FnMut(Vec<&'q Q>) -> F,
    ) -> Result<HashMap<&'q Q, Arc<V>>, GetError<E>>
    where
        K: Borrow<Q>,
        Q: Hash + Eq + ToOwned<Owned = K> + ?Sized + 'q,
        F: Future<Output = Result<HashMap<K, (V, u32)>, E>>,
    {
        self.get_many_at(keys, self.0.clock.now(), load).await
    }

    /// As `get_many`, with a loader that returns the values alone, each of which then weighs 1.
    ///
    /// ```
    /// # use rookdresser::{future::Loading, Setup};
    /// # mod runtime { include!(concat!(env!("CARGO_MANIFEST_DIR"), "/tests/common/block_on.rs")); }
    /// # runtime::block_on(async {
    /// # let cache = Loading::<u64, u64, std::io::Error>::open(&Setup::of(100))?;
    /// let squares = |absent: Vec<&u64>| {
    ///     let squares = absent.into_iter().map(|&n| (n, n * n)).collect();
    ///     async { Ok(squares) }
    /// };
    /// assert_eq!(*cache.try_get_many_with(&[3, 4], squares).await?[&4], 16);
    /// # Ok::<(), Box<dyn std::error::Error>>(())
    /// # }).unwrap();
    /// ```
    pub async fn try_get_many_with<'q, Q, F>(
        &self,
        keys: impl IntoIterator<Item = &'q Q>,
        load: impl FnMut(Vec<&'q Q>) -> F,
    ) -> Result<HashMap<&'q Q, Arc<V>>, GetError<E>>
    where
        K: Borrow<Q>,
        Q: Hash + Eq + ToOwned<Owned = K> + ?Sized + 'q,
        F: Future<Output = Result<HashMap<K, V>, E>>,
    {
        self.got_many(keys, self.0.clock.now(), load, |value| (value, 1)).await
    }

    /// As `get_many`, at a moment of the caller's clock, in milliseconds.
    ///
    /// ```
    /// # use rookdresser::{future::Loading, Setup};
    /// # use std::time::Duration;
    /// # mod runtime { include!(concat!(env!("CARGO_MANIFEST_DIR"), "/tests/common/block_on.rs")); }
    /// # runtime::block_on(async {
    /// # let cache = Loading::<u64, u64, std::io::Error>::open(&Setup::of(100).after_write(Duration::from_millis(10)))?;
    /// // Entries expire after 10 milliseconds here.
    /// let load = |_| async { Ok([(1, (7, 1))].into()) };
    /// assert_eq!(cache.get_many_at(&[1], 1000, load).await?.len(), 1);
    /// assert_eq!(cache.get_many_at(&[1], 1010, |_| async { Ok([].into()) }).await?.len(), 0);
    /// # Ok::<(), Box<dyn std::error::Error>>(())
    /// # }).unwrap();
    /// ```
    pub async fn get_many_at<'q, Q, F>(
        &self,
        keys: impl IntoIterator<Item = &'q Q>,
        now: u64,
        load: impl FnMut(Vec<&'q Q>) -> F,
    ) -> Result<HashMap<&'q Q, Arc<V>>, GetError<E>>
    where
        K: Borrow<Q>,
        Q: Hash + Eq + ToOwned<Owned = K> + ?Sized + 'q,
        F: Future<Output = Result<HashMap<K, (V, u32)>, E>>,
    {
        self.got_many(keys, now, load, |loaded| loaded).await
    }

    async fn got_many<'q, Q, T, F>(
        &self,
        keys: impl IntoIterator<Item = &'q Q>,
        now: u64,
        load: impl FnMut(Vec<&'q Q>) -> F,
        weighed: impl Fn(T) -> (V, u32),
    ) -> Result<HashMap<&'q Q, Arc<V>>, GetError<E>>
    where
        K: Borrow<Q>,
        Q: Hash + Eq + ToOwned<Owned = K> + ?Sized + 'q,
        F: Future<Output = Result<HashMap<K, T>, E>>,
    {
        let (mut load, mut many) = (Guarded::of(load), Many::of(keys));
        // It is dropped behind the loads, so that what it owns may use the cache.
        let mut made = Loader(pin!(None));
        let got = 'all: loop {
            let mut batch = match Batch::begin(&self.0, &mut many, now) {
                Ok(batch) => batch,
                Err(fault) => break Err(GetError::Refused(fault)),
            };
            if !batch.absent.is_empty() {
                let absent = batch.absent.clone();
                made.0.set(Some(load.get_mut()(absent)));
                batch.pause();
                let loaded = poll_fn(|context| batch.during(|| made.get().poll(context))).await;
                let (closed, mut panics) = (batch.close(loaded, &weighed, &mut many), Panics::default());
                panics.of(|| made.0.set(None));
                if let Err(error) = panics.checked(closed) {
                    break Err(error);
                }
            }
            for (key, flight) in take(&mut batch.joined) {
                let told = Joined::of(flight.take()).await;
                if let Err(error) = many.add(key, shared(told)) {
                    break 'all Err(error);
                }
            }
            if many.rest.is_empty() {
                break Ok(());
            }
        };
        let mut panics = Panics::default();
        panics.of(|| drop(load));
        many.end(got, panics)
    }
}

// A loader's future, in its place. If a panic drops it, a panic of its own drop is lost.
struct Loader<'a, F>(Pin<&'a mut Option<F>>);

impl<F> Loader<'_, F> {
    fn get(&mut self) -> Pin<&mut F> {
        self.0.as_mut().as_pin_mut().expect("it is dropped at the end")
    }
}

impl<F> Drop for Loader<'_, F> {
    fn drop(&mut self) {
        let mut panics = Panics::default();
        panics.of(|| self.0.set(None));
        panics.pass_on();
    }
}

impl<K, V, E, S> Deref for Loading<K, V, E, S> {
    type Target = crate::Loading<K, V, E, S>;

    fn deref(&self) -> &Self::Target {
        &self.0
    }
}

// Not derived, since keys, values and errors need not be `Clone`.
impl<K, V, E, S> Clone for Loading<K, V, E, S> {
    fn clone(&self) -> Self {
        Loading(self.0.clone())
    }
}

impl<K, V, E, S> Debug for Loading<K, V, E, S> {
    fn fmt(&self, f: &mut Formatter<'_>) -> std::fmt::Result {
        self.0.fmt(f)
    }
}

impl<K, V, E, S> From<crate::Loading<K, V, E, S>> for Loading<K, V, E, S> {
    fn from(cache: crate::Loading<K, V, E, S>) -> Self {
        Loading(Arc::new(cache))
    }
}

impl<K, V, E, S> From<Arc<crate::Loading<K, V, E, S>>> for Loading<K, V, E, S> {
    fn from(cache: Arc<crate::Loading<K, V, E, S>>) -> Self {
        Loading(cache)
    }
}
