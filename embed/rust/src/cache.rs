//! A cache of keys and values of any type, for one owner.
use crate::life::Life;
use crate::panics::{Guarded, Panics};
use crate::several::Several;
use crate::table::store::{drop_each, Ended, Store};
use crate::table::{hash_of, place, InRows, Place};
use crate::window::{Advice, Share};
use crate::{Fault, Found, Landed, Left, Numbers, OpenError, Setup, Token};
use std::borrow::Borrow;
use std::collections::hash_map::RandomState;
use std::fmt::{Debug, Formatter};
use std::hash::{BuildHasher, Hash};
use std::marker::PhantomData;
use std::sync::Arc;
use std::time::Duration;

/// What left a cache by one call. The cache shares a key with a load of it that is open.
type AllLeft<K, V> = Vec<Left<Arc<K>, V>>;

/// A cache for one owner. Each call is given the moment, in milliseconds of the caller's clock, and also returns what left if it changes
/// the cache.
///
/// The library gets a number for each key: its hash by `S`, whose random seed keeps strangers who choose keys from aiming at the
/// cache's tables.
pub struct Cache<K, V, S = RandomState> {
    store: Store<K, InRows<V>>,
    hasher: S,
}

impl<K, V, S> Debug for Cache<K, V, S> {
    fn fmt(&self, f: &mut Formatter<'_>) -> std::fmt::Result {
        f.debug_struct("Cache").field("keys", &self.store.table.len()).finish_non_exhaustive()
    }
}

impl<K: Hash + Eq + Clone, V> Cache<K, V> {
    /// Opens an empty cache. `BadSetup`, then `OutOfMemory`.
    ///
    /// ```
    /// use rookdresser::{Cache, Setup};
    ///
    /// let mut cache = Cache::<String, u64>::open(&Setup::of(100))?;
    /// cache.put(&"a".into(), 7, 1, 0)?;
    /// assert_eq!(cache.look("a", 0)?.0, Some(&7));
    /// # Ok::<(), Box<dyn std::error::Error>>(())
    /// ```
    pub fn open(setup: &Setup) -> Result<Self, OpenError> {
        Self::with_hasher(setup, RandomState::new())
    }
}

impl<K: Hash + Eq + Clone, V, S: BuildHasher> Cache<K, V, S> {
    /// As `open`, with a hasher of the caller's. It has to spread keys over all 64 bits, or nearly so.
    ///
    /// ```
    /// use rookdresser::{Cache, Setup};
    /// use std::hash::{BuildHasherDefault, DefaultHasher};
    ///
    /// // With no seed: for keys that no stranger chooses.
    /// let hasher = BuildHasherDefault::<DefaultHasher>::default();
    /// let mut cache = Cache::<u64, u64, _>::with_hasher(&Setup::of(100), hasher)?;
    /// assert_eq!(cache.put(&1, 7, 1, 0)?, []);
    /// # Ok::<(), Box<dyn std::error::Error>>(())
    /// ```
    pub fn with_hasher(setup: &Setup, hasher: S) -> Result<Self, OpenError> {
        setup.check_sharded(1)?;
        let advice = Advice::of(setup, std::slice::from_ref(setup));
        Ok(Cache { store: Store::open(setup, Share::of(advice, 1, 0), InRows(PhantomData))?, hasher })
    }

    /// The key's value, if it is there, with what left.
    ///
    /// ```
    /// # use rookdresser::{Cache, Cause, Setup};
    /// # use std::time::Duration;
    /// # let mut cache = Cache::<String, u64>::open(&Setup::of(100).after_write(Duration::from_millis(10)))?;
    /// cache.put(&"a".into(), 7, 1, 1000)?;
    /// // Entries expire after 10 milliseconds here.
    /// assert_eq!(cache.look("a", 1009)?, (Some(&7), vec![]));
    /// let (value, left) = cache.look("a", 1010)?;
    /// assert_eq!((value, left[0].cause), (None, Cause::Expired));
    /// # Ok::<(), Box<dyn std::error::Error>>(())
    /// ```
    #[allow(clippy::type_complexity)]
    pub fn look<Q>(&mut self, key: &Q, now: u64) -> Result<(Option<&V>, AllLeft<K, V>), Fault>
    where
        K: Borrow<Q>,
        Q: Hash + Eq + ?Sized,
    {
        let hash = hash_of(&self.hasher, key);
        let at = self.found(hash, key);
        let is_there = self.store.look(at, hash, now)?;
        let left = self.left();
        let value = at.filter(|_| is_there).and_then(|at| self.store.table.row(at).kept.as_ref());
        Ok((value, left))
    }

    /// The value that [`Cache::look`] would hit, if it would hit. It uses no entry, counts nothing, and lets nothing leave.
    ///
    /// ```
    /// # use rookdresser::{Cache, Setup};
    /// # use std::time::Duration;
    /// # let mut cache = Cache::<String, u64>::open(&Setup::of(100).after_write(Duration::from_millis(10)))?;
    /// cache.put(&"a".into(), 7, 1, 1000)?;
    /// // Entries expire after 10 milliseconds here.
    /// assert_eq!(cache.peek("a", 1009), Some(&7));
    /// assert_eq!(cache.peek("a", 1010), None);
    /// assert_eq!((cache.numbers().lookups, cache.numbers().entries), (0, 1));
    /// # Ok::<(), Box<dyn std::error::Error>>(())
    /// ```
    pub fn peek<Q>(&mut self, key: &Q, now: u64) -> Option<&V>
    where
        K: Borrow<Q>,
        Q: Hash + Eq + ?Sized,
    {
        let at = self.found(hash_of(&self.hasher, key), key)?;
        let number = self.store.table.row(at).number;
        self.store.library.peek(number, now)?;
        self.store.table.row(at).kept.as_ref()
    }

    /// Looks the key up, and joins or opens a load, with what left. Whoever leads the load calls `land` or `fail`.
    ///
    /// ```
    /// # use rookdresser::{Cache, Found, Landed, Setup};
    /// # let mut cache = Cache::<String, u64>::open(&Setup::of(100))?;
    /// let key = String::from("a");
    /// if let (Found::Lead(id), _) = cache.seek(&key, 0)? {
    ///     assert_eq!(cache.land(id, &key, 7, 1, 0).0, Landed::Kept(1));
    /// }
    /// let Found::Hit(token) = cache.seek(&key, 0)?.0 else { unreachable!("it is there") };
    /// assert_eq!(cache.value(token), &7);
    /// # Ok::<(), Box<dyn std::error::Error>>(())
    /// ```
    pub fn seek(&mut self, key: &K, now: u64) -> Result<(Found, AllLeft<K, V>), Fault> {
        let place = self.place(key);
        self.store.table.try_room(&place)?;
        let number = self.store.table.number(&place);
        let found = self.store.library.seek(number, now)?;
        if matches!(found, Found::Lead(_) | Found::HitLead(..)) {
            self.store.table.open(place);
        }
        Ok((found, self.left()))
    }

    /// The value of a token that the cache holds.
    ///
    /// ```
    /// # use rookdresser::{Cache, Found, Setup};
    /// # let mut cache = Cache::<String, u64>::open(&Setup::of(100))?;
    /// cache.put(&"a".into(), 7, 1, 0)?;
    /// let Found::Hit(token) = cache.seek(&"a".into(), 0)?.0 else { unreachable!("it is there") };
    /// assert_eq!(cache.value(token), &7);
    /// # Ok::<(), Box<dyn std::error::Error>>(())
    /// ```
    pub fn value(&self, token: Token) -> &V {
        self.store.table.row(place(token.token)).kept.as_ref().expect("a token that is held has its value")
    }

    /// Stores the value under the key.
    ///
    /// ```
    /// # use rookdresser::{Cache, Cause, Setup};
    /// # let mut cache = Cache::<String, u64>::open(&Setup::of(100))?;
    /// assert_eq!(cache.put(&"a".into(), 7, 1, 0)?, []);
    /// let left = cache.put(&"a".into(), 8, 1, 0)?;
    /// assert_eq!((left[0].value, left[0].cause), (7, Cause::Replaced));
    /// # Ok::<(), Box<dyn std::error::Error>>(())
    /// ```
    pub fn put(&mut self, key: &K, value: V, weight: u32, now: u64) -> Result<AllLeft<K, V>, Fault> {
        self.put_lived(key, value, (weight, Life::NONE), now)
    }

    /// Stores the value under the key, with a life: the entry expires as that ends, or earlier by the setup's durations. No use lengthens
    /// it, and the next store of the key gives its entry another life, or none.
    ///
    /// A life counts in whole milliseconds, rounded up. 0 counts as one, and more than 2^32 - 1, which are 49 days, as none.
    ///
    /// ```
    /// # use rookdresser::{Cache, Setup};
    /// # use std::time::Duration;
    /// # let mut cache = Cache::<String, u64>::open(&Setup::of(100))?;
    /// cache.put_for(&"a".into(), 7, 1, Duration::from_millis(10), 1000)?;
    /// assert_eq!(cache.peek("a", 1009), Some(&7));
    /// assert_eq!(cache.peek("a", 1010), None);
    /// # Ok::<(), Box<dyn std::error::Error>>(())
    /// ```
    #[allow(clippy::type_complexity)]
    pub fn put_for(
        &mut self,
        key: &K,
        value: V,
        weight: u32,
        life: Duration,
        now: u64,
    ) -> Result<AllLeft<K, V>, Fault> {
        self.put_lived(key, value, (weight, Life::of(life)), now)
    }

    fn put_lived(&mut self, key: &K, value: V, weight: (u32, Life), now: u64) -> Result<AllLeft<K, V>, Fault> {
        let value = Guarded::of(value);
        let place = self.place(key);
        let mut left = Several::none();
        match self.store.put(place, value.take(), weight, now, &mut left) {
            Ok(()) => Ok(left.into_vec()),
            Err((fault, place, value)) => {
                let mut panics = Panics::default();
                panics.of(|| drop(place));
                panics.of(|| drop(value));
                panics.checked(Err(fault))
            }
        }
    }

    /// Closes a load that this caller leads with a value. If memory is refused, the load is closed without storing.
    ///
    /// ```
    /// # use rookdresser::{Cache, Found, Landed, Setup};
    /// # let mut cache = Cache::<String, u64>::open(&Setup::of(100))?;
    /// let key = String::from("a");
    /// let Found::Lead(id) = cache.seek(&key, 0)?.0 else { unreachable!("nothing is there") };
    /// assert_eq!(cache.land(id, &key, 7, 1, 0), (Landed::Kept(1), vec![]));
    /// assert_eq!(cache.look("a", 0)?.0, Some(&7));
    /// # Ok::<(), Box<dyn std::error::Error>>(())
    /// ```
    pub fn land(&mut self, id: u64, key: &K, value: V, weight: u32, now: u64) -> (Landed, AllLeft<K, V>) {
        self.land_lived(id, key, value, (weight, Life::NONE), now)
    }

    /// As `land`, with a life that begins at this moment, as `put_for` gives one.
    ///
    /// ```
    /// # use rookdresser::{Cache, Found, Setup};
    /// # use std::time::Duration;
    /// # let mut cache = Cache::<String, u64>::open(&Setup::of(100))?;
    /// let key = String::from("a");
    /// let Found::Lead(id) = cache.seek(&key, 1000)?.0 else { unreachable!("nothing is there") };
    /// cache.land_for(id, &key, 7, (1, Duration::from_millis(10)), 1000);
    /// assert_eq!(cache.peek("a", 1009), Some(&7));
    /// assert_eq!(cache.peek("a", 1010), None);
    /// # Ok::<(), Box<dyn std::error::Error>>(())
    /// ```
    pub fn land_for(
        &mut self,
        id: u64,
        key: &K,
        value: V,
        (weight, life): (u32, Duration),
        now: u64,
    ) -> (Landed, AllLeft<K, V>) {
        self.land_lived(id, key, value, (weight, Life::of(life)), now)
    }

    fn land_lived(
        &mut self,
        id: u64,
        key: &K,
        value: V,
        (weight, life): (u32, Life),
        now: u64,
    ) -> (Landed, AllLeft<K, V>) {
        let value = Guarded::of(value);
        match self.found(hash_of(&self.hasher, key), key) {
            Some(at) => {
                let mut left = Several::none();
                let load = self.store.land((id, at), (value.take(), weight, life), now, &mut left);
                ended(load, left)
            }
            None => {
                drop(value);
                self.land_nothing(id, key, now)
            }
        }
    }

    /// Closes a load that this caller leads and that failed. The key's entry leaves if it has expired meanwhile.
    ///
    /// ```
    /// # use rookdresser::{Cache, Found, Landed, Setup};
    /// # let mut cache = Cache::<String, u64>::open(&Setup::of(100))?;
    /// let key = String::from("a");
    /// let Found::Lead(id) = cache.seek(&key, 0)?.0 else { unreachable!("nothing is there") };
    /// assert_eq!(cache.fail(id, &key, 0), (Landed::Failed(1), vec![]));
    /// # Ok::<(), Box<dyn std::error::Error>>(())
    /// ```
    pub fn fail(&mut self, id: u64, key: &K, now: u64) -> (Landed, AllLeft<K, V>) {
        match self.found(hash_of(&self.hasher, key), key) {
            Some(at) => {
                let mut left = Several::none();
                let load = self.store.fail((id, at), now, &mut left);
                ended(load, left)
            }
            None => self.land_nothing(id, key, now),
        }
    }

    // No load of the key is open, as the key isn't in use.
    fn land_nothing(&mut self, id: u64, key: &K, now: u64) -> (Landed, AllLeft<K, V>) {
        let number = self.number(key);
        let landed = self.store.library.made(now, |tokens, now| tokens.land_failed(id, number, now));
        (landed.unwrap_or(Landed::Gone), self.left())
    }

    /// Takes the key's entry out. A load of the key that is open will store nothing.
    ///
    /// ```
    /// # use rookdresser::{Cache, Setup};
    /// # let mut cache = Cache::<String, u64>::open(&Setup::of(100))?;
    /// cache.put(&"a".into(), 7, 1, 0)?;
    /// assert_eq!(cache.drop_key("a", 0)?[0].value, 7);
    /// # Ok::<(), Box<dyn std::error::Error>>(())
    /// ```
    pub fn drop_key<Q>(&mut self, key: &Q, now: u64) -> Result<AllLeft<K, V>, Fault>
    where
        K: Borrow<Q>,
        Q: Hash + Eq + ?Sized,
    {
        let number = self.number(key);
        let mut left = Several::none();
        self.store.drop_key(number, now, &mut left)?;
        Ok(left.into_vec())
    }

    /// Lets nobody further join a load of the key that is open, which will store nothing. Tells whether there was one.
    ///
    /// ```
    /// # use rookdresser::{Cache, Found, Landed, Setup};
    /// # let mut cache = Cache::<String, u64>::open(&Setup::of(100))?;
    /// let key = String::from("a");
    /// let Found::Lead(id) = cache.seek(&key, 0)?.0 else { unreachable!("nothing is there") };
    /// assert_eq!(cache.forget("a", 0)?, (true, vec![]));
    /// assert_eq!(cache.land(id, &key, 7, 1, 0), (Landed::Loose(1), vec![]));
    /// # Ok::<(), Box<dyn std::error::Error>>(())
    /// ```
    pub fn forget<Q>(&mut self, key: &Q, now: u64) -> Result<(bool, AllLeft<K, V>), Fault>
    where
        K: Borrow<Q>,
        Q: Hash + Eq + ?Sized,
    {
        let number = self.number(key);
        let mut left = Several::none();
        let forgot = self.store.forget(number, now, &mut left)?;
        Ok((forgot, left.into_vec()))
    }

    /// Takes every entry out.
    ///
    /// ```
    /// # use rookdresser::{Cache, Setup};
    /// # let mut cache = Cache::<String, u64>::open(&Setup::of(100))?;
    /// cache.put(&"a".into(), 7, 1, 0)?;
    /// assert_eq!(cache.clear(0)?.len(), 1);
    /// # Ok::<(), Box<dyn std::error::Error>>(())
    /// ```
    pub fn clear(&mut self, now: u64) -> Result<AllLeft<K, V>, Fault> {
        let mut left = Several::none();
        self.store.clear(now, &mut left)?;
        Ok(left.into_vec())
    }

    /// Takes every expired entry out.
    ///
    /// ```
    /// # use rookdresser::{Cache, Setup};
    /// # use std::time::Duration;
    /// # let mut cache = Cache::<String, u64>::open(&Setup::of(100).after_write(Duration::from_millis(10)))?;
    /// // Entries expire after 10 milliseconds here.
    /// cache.put(&"a".into(), 7, 1, 1000)?;
    /// assert_eq!((cache.clean(1009)?.len(), cache.clean(1010)?.len()), (0, 1));
    /// # Ok::<(), Box<dyn std::error::Error>>(())
    /// ```
    pub fn clean(&mut self, now: u64) -> Result<AllLeft<K, V>, Fault> {
        let mut left = Several::none();
        self.store.clean(now, &mut left)?;
        Ok(left.into_vec())
    }

    /// The numbers of the cache.
    ///
    /// ```
    /// # use rookdresser::{Cache, Setup};
    /// # let mut cache = Cache::<String, u64>::open(&Setup::of(100))?;
    /// cache.put(&"a".into(), 7, 3, 0)?;
    /// assert_eq!((cache.numbers().entries, cache.numbers().weight), (1, 3));
    /// # Ok::<(), Box<dyn std::error::Error>>(())
    /// ```
    pub fn numbers(&mut self) -> Numbers {
        self.store.numbers()
    }

    /// How many entries the window may hold now: 1 to `entries`. It changes if the window follows the stream ([`Setup::adaptive`]).
    ///
    /// ```
    /// # use rookdresser::{Cache, Setup};
    /// // 10 hundredths at first.
    /// assert_eq!(Cache::<u64, u64>::open(&Setup::of(1000))?.window(), 100);
    /// let fixed = Cache::<u64, u64>::open(&Setup { adaptive: Some(false), ..Setup::of(1000) })?;
    /// assert_eq!(fixed.window(), 10);
    /// # Ok::<(), Box<dyn std::error::Error>>(())
    /// ```
    pub fn window(&self) -> u32 {
        self.store.library.window()
    }

    /// How many values and how many keys this side keeps. While no load is open, both are the entries that the library holds.
    ///
    /// ```
    /// # use rookdresser::{Cache, Setup};
    /// # let mut cache = Cache::<String, u64>::open(&Setup::of(100))?;
    /// cache.put(&"a".into(), 7, 1, 0)?;
    /// assert_eq!(cache.kept(), (1, 1));
    /// # Ok::<(), Box<dyn std::error::Error>>(())
    /// ```
    pub fn kept(&self) -> (usize, usize) {
        self.store.kept()
    }

    // What left by the latest look or seek: mostly nothing.
    #[inline]
    fn left(&mut self) -> AllLeft<K, V> {
        if self.store.has_left() {
            return self.store.left().into_vec();
        }
        Vec::new()
    }

    fn found<Q>(&self, hash: u64, key: &Q) -> Option<u32>
    where
        K: Borrow<Q>,
        Q: Eq + ?Sized,
    {
        self.store.table.rows(hash).find(|(_, row)| (*row.key).borrow() == key).map(|row| row.0)
    }

    // The key's number, or one that it could have.
    fn number<Q>(&self, key: &Q) -> u64
    where
        K: Borrow<Q>,
        Q: Hash + Eq + ?Sized,
    {
        let hash = hash_of(&self.hasher, key);
        self.store.number(self.found(hash, key), hash)
    }

    fn place(&self, key: &K) -> Place<K> {
        let hash = hash_of(&self.hasher, key);
        self.found(hash, key).map_or_else(|| self.store.table.new_place(hash, Arc::new(key.clone())), Place::At)
    }
}

// How a load landed, and what left by it. What isn't stored is dropped.
fn ended<K, V>(load: Ended<K, V>, left: Several<Left<Arc<K>, V>>) -> (Landed, AllLeft<K, V>) {
    let Ended { landed, value, key } = load;
    let mut panics = Panics::default();
    panics.of(|| drop(value));
    panics.of(|| drop(key));
    if panics.is_none() {
        return (landed, left.into_vec());
    }
    drop_each(left, &mut panics);
    panics.checked((landed, Vec::new()))
}
