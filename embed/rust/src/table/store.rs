//! Tokens with the values and the keys that they stand for. No code of the caller's runs here: what leaves is moved out.
use crate::library::Library;
use crate::life::Life;
use crate::panics::Panics;
use crate::several::Several;
use crate::table::{Place, Table, Terms, Values};
use crate::window::Share;
use crate::{Fault, Found, Landed, Numbers, OpenError, Setup, Token};
use std::sync::Arc;

/// Why an entry left.
#[derive(Clone, Copy, Debug, PartialEq, Eq, Hash)]
pub enum Cause {
    /// It was dropped or cleared.
    Explicit,
    /// Another value was stored under its key.
    Replaced,
    /// It was too old.
    Expired,
    /// It was evicted.
    Size,
}

/// An entry that left.
#[derive(Clone, Debug, PartialEq, Eq)]
pub struct Left<K, V> {
    /// Its key.
    pub key: K,
    /// Its value.
    pub value: V,
    /// Why it left.
    pub cause: Cause,
}

/// What left by a call, or by several.
pub(crate) type AllLeft<K, V> = Several<Left<Arc<K>, V>>;

/// A cache of tokens, with a row for each key that is in use.
///
/// A call that makes entries leave adds them to what it is handed.
pub(crate) struct Store<K, M: Values<K>> {
    pub(crate) library: Library,
    pub(crate) table: Table<K, M>,
    /// How many entries have left, by their cause.
    pub(crate) causes: [u64; 4],
}

impl<K, M: Values<K>> Store<K, M> {
    pub(crate) fn open(setup: &Setup, share: Option<Share>, values: M) -> Result<Self, OpenError> {
        Ok(Store { library: Library::open(setup, share)?, table: Table::of(setup.entries, values), causes: [0; 4] })
    }

    /// The number of a row, or the one for a new key of this hash.
    #[inline]
    pub(crate) fn number(&self, at: Option<u32>, hash: u64) -> u64 {
        match at {
            Some(at) => self.table.row(at).number,
            None => self.table.free(hash),
        }
    }

    /// Looks up the key of a row, or a new key of this hash. Returns whether it is there. `left` tells what left by it.
    #[inline(always)]
    pub(crate) fn look(&mut self, at: Option<u32>, hash: u64, now: u64) -> Result<bool, Fault> {
        let number = self.number(at, hash);
        Ok(matches!(self.library.look(number, now)?, Found::Hit(_)))
    }

    /// A seek. `left` tells what left by it.
    #[inline(always)]
    pub(crate) fn seek(&mut self, place: &Place<K>, now: u64) -> Result<Found, Fault> {
        self.table.try_room(place)?;
        self.library.seek(self.table.number(place), now)
    }

    /// Stores the value. One that is refused is given back with its place.
    #[inline]
    pub(crate) fn put(
        &mut self,
        place: Place<K>,
        value: M::Value,
        (weight, life): (u32, Life),
        now: u64,
        left: &mut AllLeft<K, M::Out>,
    ) -> Result<(), (Fault, Place<K>, M::Value)> {
        if let Err(fault) = self.table.try_room(&place) {
            return Err((fault, place, value));
        }
        let (number, token) = (self.table.number(&place), self.table.next_token(&place));
        match self.library.made(now, |tokens, now| tokens.put_lived(number, Token { token, weight }, life, now)) {
            Ok(()) => {
                let old = self.table.store(place, value, Terms { weight, until: self.library.until(life) });
                self.take_out(old, left);
                Ok(())
            }
            Err(fault) => Err((fault, place, value)),
        }
    }

    /// Closes a load that used the row. If memory is refused it is closed without storing. A value that isn't stored is given back.
    pub(crate) fn land(
        &mut self,
        (id, at): (u64, u32),
        (value, weight, life): (M::Value, u32, Life),
        now: u64,
        left: &mut AllLeft<K, M::Out>,
    ) -> Ended<K, M::Value> {
        let number = self.table.row(at).number;
        let token = self.table.next_token(&Place::At(at));
        let held = Token { token, weight };
        match self.library.made(now, |tokens, now| tokens.land_lived(id, number, held, life, now)) {
            Ok(landed @ Landed::Kept(_)) => {
                let terms = Terms { weight, until: self.library.until(life) };
                let old = self.table.store(Place::At(at), value, terms);
                let key = self.table.close(at);
                self.take_out(old, left);
                Ended { landed, value: None, key }
            }
            Ok(landed) => self.ended(landed, at, Some(value), left),
            Err(_) => {
                let landed = self.library.made(now, |tokens, now| tokens.land_loose(id, number, now));
                let landed = landed.unwrap_or(Landed::Gone);
                self.ended(landed, at, Some(value), left)
            }
        }
    }

    /// Closes a load that used the row and failed.
    pub(crate) fn fail(&mut self, (id, at): (u64, u32), now: u64, left: &mut AllLeft<K, M::Out>) -> Ended<K, M::Value> {
        let number = self.table.row(at).number;
        let landed = self.library.made(now, |tokens, now| tokens.land_failed(id, number, now));
        self.ended(landed.unwrap_or(Landed::Gone), at, None, left)
    }

    // A load of the row ended, and stored nothing.
    fn ended(
        &mut self,
        landed: Landed,
        at: u32,
        value: Option<M::Value>,
        left: &mut AllLeft<K, M::Out>,
    ) -> Ended<K, M::Value> {
        self.take_out(None, left);
        let key = if landed == Landed::Gone { None } else { self.table.close(at) };
        Ended { landed, value, key }
    }

    pub(crate) fn drop_key(&mut self, number: u64, now: u64, left: &mut AllLeft<K, M::Out>) -> Result<(), Fault> {
        self.library.made_as_it_is(now, |tokens, now| tokens.drop_key(number, now))?;
        self.take_out(None, left);
        Ok(())
    }

    pub(crate) fn forget(&mut self, number: u64, now: u64, left: &mut AllLeft<K, M::Out>) -> Result<bool, Fault> {
        let forgot = self.library.made_as_it_is(now, |tokens, now| tokens.forget(number, now))?;
        self.take_out(None, left);
        Ok(forgot)
    }

    pub(crate) fn clear(&mut self, now: u64, left: &mut AllLeft<K, M::Out>) -> Result<(), Fault> {
        self.library.made_as_it_is(now, |tokens, now| tokens.clear(now))?;
        self.take_out(None, left);
        Ok(())
    }

    pub(crate) fn clean(&mut self, now: u64, left: &mut AllLeft<K, M::Out>) -> Result<(), Fault> {
        self.library.made_as_it_is(now, |tokens, now| tokens.clean(now))?;
        self.take_out(None, left);
        Ok(())
    }

    pub(crate) fn numbers(&mut self) -> Numbers {
        self.library.numbers()
    }

    pub(crate) fn kept(&self) -> (usize, usize) {
        self.table.kept()
    }

    /// Whether something left by the latest call.
    #[inline]
    pub(crate) fn has_left(&mut self) -> bool {
        self.library.tokens().has_notices()
    }

    /// Moves out what left by the latest look or seek.
    #[inline]
    pub(crate) fn left(&mut self) -> AllLeft<K, M::Out> {
        let mut left = Several::none();
        self.take_out(None, &mut left);
        left
    }

    // Moves out what left by the latest call. If that stored a value in place of an old one, the old one is among it.
    #[inline]
    fn take_out(&mut self, mut old: Option<M::Out>, left: &mut AllLeft<K, M::Out>) {
        if self.library.tokens().has_notices() {
            self.take_each_out(&mut old, left);
        }
    }

    fn take_each_out(&mut self, old: &mut Option<M::Out>, left: &mut AllLeft<K, M::Out>) {
        for notice in self.library.tokens().notices() {
            let (key, value) = self.table.take(notice.token, old);
            let cause = notice.cause;
            self.causes[cause as usize] += 1;
            left.push(Left { key, value, cause });
        }
    }
}

impl<K, M: Values<K>> Drop for Store<K, M> {
    fn drop(&mut self) {
        let mut panics = Panics::default();
        let (keys, left) = self.table.take_all();
        for key in keys {
            panics.of(|| drop(key));
        }
        drop_each(self.table.values.open(left), &mut panics);
        panics.pass_on();
    }
}

/// Drops what left, each key and each value whatever the drops before did.
#[inline]
pub(crate) fn drop_each<K, V>(left: AllLeft<K, V>, panics: &mut Panics) {
    left.for_each(|left| {
        let Left { key, value, .. } = left;
        panics.of(|| drop(value));
        panics.of(|| drop(key));
    });
}

/// How a load ended, with what is now the caller's again.
pub(crate) struct Ended<K, V> {
    pub(crate) landed: Landed,
    pub(crate) value: Option<V>,
    pub(crate) key: Option<Arc<K>>,
}
