//! A cache of tokens: safe calls over `rookdresser.h`.
use crate::key::Key;
use crate::life::Life;
use crate::setup::OpenError;
use crate::sys::{self, Answer, Handle, Looked, Numbers, Settings, Token};
use crate::{Cause, Setup};
use std::fmt::{Debug, Display, Formatter};
use std::time::Duration;

/// Why a call was refused. A refused call changes nothing.
///
/// A later version may have further faults, so a `match` has a last arm for them. Without it this doesn't compile:
///
/// ```compile_fail,E0004
/// use rookdresser::Fault;
///
/// fn may_succeed_later(fault: Fault) -> bool {
///     match fault {
///         Fault::OutOfMemory | Fault::TooManyFlights => true,
///         Fault::TooHeavy | Fault::StepsSpent => false,
///     }
/// }
/// ```
#[derive(Clone, Copy, Debug, PartialEq, Eq, Hash)]
#[non_exhaustive]
pub enum Fault {
    /// An allocation of the library failed, or of the table of keys and values. The same call may succeed later.
    OutOfMemory,
    /// The value weighs more than `bound`.
    TooHeavy,
    /// As many loads are open as `flights` allows. The call may succeed once one of them has landed.
    TooManyFlights,
    /// The cache has made 2^60 calls, the most that it can. Open another one.
    StepsSpent,
}

impl Fault {
    /// All faults of this version, each at the place that [`Fault::place`] tells.
    pub const ALL: [Fault; 4] = [Fault::OutOfMemory, Fault::TooHeavy, Fault::TooManyFlights, Fault::StepsSpent];

    /// Its place in [`Fault::ALL`].
    ///
    /// ```
    /// use rookdresser::{Fault, Loading, Setup};
    ///
    /// let cache = Loading::<u64, u64, ()>::open(&Setup { bound: 10, ..Setup::of(100) })?;
    /// assert_eq!(cache.store(&1, 7, 11), Err(Fault::TooHeavy));
    /// assert_eq!(cache.stats().refused[Fault::TooHeavy.place()], 1);
    /// # Ok::<(), Box<dyn std::error::Error>>(())
    /// ```
    pub fn place(self) -> usize {
        self as usize
    }
}

impl Display for Fault {
    fn fmt(&self, f: &mut Formatter<'_>) -> std::fmt::Result {
        f.pad(match self {
            Fault::OutOfMemory => "out of memory",
            Fault::TooHeavy => "the value is heavier than the bound",
            Fault::TooManyFlights => "too many loads are open",
            Fault::StepsSpent => "2^60 steps were made",
        })
    }
}

impl std::error::Error for Fault {}

// An open cache returns 0, 1, 3, 4 and 5 alone.
fn fault(number: u64) -> Fault {
    match number {
        1 => Fault::OutOfMemory,
        3 => Fault::TooHeavy,
        4 => Fault::TooManyFlights,
        _ => Fault::StepsSpent,
    }
}

/// What a look-up found.
#[derive(Clone, Copy, Debug, PartialEq, Eq)]
pub enum Found {
    /// The key is there.
    Hit(Token),
    /// The key isn't there. Only `look` returns it.
    Absent,
    /// The key is there, but due for a further load, which this caller is to make.
    HitLead(Token, u64),
    /// Another caller makes the load of this id.
    Join(u64),
    /// This caller is to make the load of this id.
    Lead(u64),
}

/// How a load landed, with the number of those who shared it.
#[derive(Clone, Copy, Debug, PartialEq, Eq)]
pub enum Landed {
    /// Its value was stored.
    Kept(u64),
    /// Its value was not stored: the key was put, dropped, forgotten or cleared meanwhile, or the value is too heavy.
    Loose(u64),
    /// It failed.
    Failed(u64),
    /// No load of this id and key was open.
    Gone,
}

/// An entry that left a [`Tokens`].
#[derive(Clone, Copy, Debug, PartialEq, Eq)]
pub struct Notice<K> {
    /// The key of the entry.
    pub key: K,
    /// Its token, which is the caller's again.
    pub token: u64,
    /// What it weighed.
    pub weight: u32,
    /// Why it left.
    pub cause: Cause,
}

/// One cache, and the notices of its latest call. Its keys are numbers, or names of at most 24 bytes.
///
/// Each call is given the moment, in milliseconds of the caller's clock, as the calls for C are.
pub struct Tokens<K = u64> {
    handle: Handle,
    told: u64,
    // The first notice of the latest call, if that handed it back and told any.
    first: sys::Notice<K>,
    has_first: bool,
}

// SAFETY: `Box<Opened>`, to which the handle leads, is proved `Send` (`cache_is_sendable` of wt_ffi), and each call
// takes `&mut self`, so that one call at a time is made, and moving the value orders them.
unsafe impl<K> Send for Tokens<K> {}

impl<K: Key> Tokens<K> {
    /// Opens an empty cache. `BadSetup`, then `OutOfMemory`. Panics on a processor older than x86-64-v2, which lacks
    /// instructions that the library has.
    ///
    /// The window moves only by [`slide`](Tokens::slide), so `adaptive` may not be true. If no window is given, it has a hundredth of the
    /// entries.
    ///
    /// ```
    /// use rookdresser::{Found, Setup, Token, Tokens};
    ///
    /// let mut cache = Tokens::<u64>::open(&Setup::of(100))?;
    /// cache.put(1, Token { token: 7, weight: 1 }, 0)?;
    /// assert_eq!(cache.look(1, 0), Ok(Found::Hit(Token { token: 7, weight: 1 })));
    /// # Ok::<(), Box<dyn std::error::Error>>(())
    /// ```
    pub fn open(setup: &Setup) -> Result<Self, OpenError> {
        setup.check_tokens()?;
        Self::of(&setup.with_window(setup.fixed_window()))
    }

    /// The same of settings that are within their ranges.
    pub(crate) fn of(settings: &Settings) -> Result<Self, OpenError> {
        let mut handle = Handle::closed()?;
        // SAFETY: both lead to whole values that are borrowed for the call, and the handle is closed: all bytes are zero.
        match unsafe { (K::CALLS.open)(settings, &mut handle) } {
            0 => Ok(Tokens { handle, told: 0, first: sys::Notice::default(), has_first: false }),
            1 => Err(OpenError::OutOfMemory),
            _ => unreachable!("the library's ranges are those that were checked"),
        }
    }

    fn made(&mut self, call: impl FnOnce(&mut Handle, &mut Answer) -> u64) -> Result<Answer, Fault> {
        self.has_first = false;
        self.called(|h, a, _| call(h, a))
    }

    // The same of a call that hands its first notice back.
    fn made_with_notice(
        &mut self,
        call: impl FnOnce(&mut Handle, &mut Answer, &mut sys::Notice<K>) -> u64,
    ) -> Result<Answer, Fault> {
        self.has_first = true;
        self.called(call)
    }

    // SAFETY of each call below: the handle was made by `rd_open`, is ours alone, and is lent for the call beside a notice of
    // ours and an answer of this function's own.
    fn called(
        &mut self,
        call: impl FnOnce(&mut Handle, &mut Answer, &mut sys::Notice<K>) -> u64,
    ) -> Result<Answer, Fault> {
        let mut answer = Answer::default();
        let number = call(&mut self.handle, &mut answer, &mut self.first);
        self.told = answer.notices;
        if number == 0 {
            Ok(answer)
        } else {
            Err(fault(number))
        }
    }

    /// Looks the key up: `Hit`, which is a use, or `Absent`.
    ///
    /// ```
    /// # use rookdresser::{Found, Setup, Token, Tokens};
    /// # let mut cache = Tokens::<u64>::open(&Setup::of(100))?;
    /// assert_eq!(cache.look(1, 0)?, Found::Absent);
    /// # Ok::<(), Box<dyn std::error::Error>>(())
    /// ```
    pub fn look(&mut self, key: K, now: u64) -> Result<Found, Fault> {
        self.made(|h, a| unsafe { (K::CALLS.look)(h, key.given(), now, a) }).map(found)
    }

    /// The token that [`Tokens::look`] would hit, if it would hit. It is no call of the cache: it uses no entry, counts nothing, and
    /// leaves the [notices](Tokens::notices) of the call before it. Takes no memory.
    ///
    /// ```
    /// # use rookdresser::{Setup, Token, Tokens};
    /// # let mut cache = Tokens::<u64>::open(&Setup::of(100))?;
    /// cache.put(1, Token { token: 7, weight: 1 }, 0)?;
    /// assert_eq!((cache.peek(1, 0), cache.peek(2, 0)), (Some(Token { token: 7, weight: 1 }), None));
    /// assert_eq!((cache.numbers().lookups, cache.numbers().step), (0, 1));
    /// # Ok::<(), Box<dyn std::error::Error>>(())
    /// ```
    pub fn peek(&mut self, key: K, now: u64) -> Option<Token> {
        let mut answer = Answer::default();
        // SAFETY: as of the calls above, and `answer` is a value of ours. An open cache of this kind of keys refuses no peek.
        unsafe { (K::CALLS.peek)(&mut self.handle, key.given(), now, &mut answer) };
        match found(answer) {
            Found::Hit(token) => Some(token),
            _ => None,
        }
    }

    /// Looks the key up, and joins or opens a load. Whoever leads it calls one of the three landings.
    ///
    /// ```
    /// # use rookdresser::{Found, Landed, Setup, Token, Tokens};
    /// # let mut cache = Tokens::<u64>::open(&Setup::of(100))?;
    /// let Found::Lead(id) = cache.seek(1, 0)? else { unreachable!("nothing is there") };
    /// assert_eq!(cache.seek(1, 0)?, Found::Join(id));
    /// assert_eq!(cache.land_keep(id, 1, Token { token: 7, weight: 1 }, 0)?, Landed::Kept(2));
    /// # Ok::<(), Box<dyn std::error::Error>>(())
    /// ```
    pub fn seek(&mut self, key: K, now: u64) -> Result<Found, Fault> {
        self.made(|h, a| unsafe { (K::CALLS.seek)(h, key.given(), now, a) }).map(found)
    }

    /// Stores the value under the key.
    ///
    /// ```
    /// # use rookdresser::{Setup, Token, Tokens};
    /// # let mut cache = Tokens::<u64>::open(&Setup::of(100))?;
    /// cache.put(1, Token { token: 7, weight: 1 }, 0)?;
    /// cache.put(1, Token { token: 8, weight: 1 }, 0)?;
    /// assert_eq!(cache.notices().map(|left| left.token).collect::<Vec<_>>(), [7]); // replaced
    /// # Ok::<(), Box<dyn std::error::Error>>(())
    /// ```
    pub fn put(&mut self, key: K, value: Token, now: u64) -> Result<(), Fault> {
        self.put_lived(key, value, Life::NONE, now)
    }

    /// Stores the value under the key, with a life: the entry expires as that ends, or earlier by the setup's durations. No use lengthens
    /// it, and the next store of the key gives its entry another life, or none.
    ///
    /// A life counts in whole milliseconds, rounded up. 0 counts as one, and more than 2^32 - 1, which are 49 days, as none.
    ///
    /// ```
    /// # use rookdresser::{Found, Setup, Token, Tokens};
    /// # use std::time::Duration;
    /// # let mut cache = Tokens::<u64>::open(&Setup::of(100))?;
    /// cache.put_for(1, Token { token: 7, weight: 1 }, Duration::from_millis(10), 1000)?;
    /// assert_eq!(cache.look(1, 1009)?, Found::Hit(Token { token: 7, weight: 1 }));
    /// assert_eq!(cache.look(1, 1010)?, Found::Absent);
    /// # Ok::<(), Box<dyn std::error::Error>>(())
    /// ```
    pub fn put_for(&mut self, key: K, value: Token, life: Duration, now: u64) -> Result<(), Fault> {
        self.put_lived(key, value, Life::of(life), now)
    }

    #[inline]
    pub(crate) fn put_lived(&mut self, key: K, value: Token, life: Life, now: u64) -> Result<(), Fault> {
        self.made_with_notice(|h, a, n| unsafe { (K::CALLS.put)(h, key.given(), value, life.0, now, a, n) }).map(drop)
    }

    /// Closes the load with a value that is to be stored. If memory is refused, the load stays open.
    ///
    /// ```
    /// # use rookdresser::{Found, Landed, Setup, Token, Tokens};
    /// # let mut cache = Tokens::<u64>::open(&Setup::of(100))?;
    /// let Found::Lead(id) = cache.seek(1, 0)? else { unreachable!("nothing is there") };
    /// assert_eq!(cache.land_keep(id, 1, Token { token: 7, weight: 1 }, 0)?, Landed::Kept(1));
    /// # Ok::<(), Box<dyn std::error::Error>>(())
    /// ```
    pub fn land_keep(&mut self, id: u64, key: K, value: Token, now: u64) -> Result<Landed, Fault> {
        self.land_lived(id, key, value, Life::NONE, now)
    }

    /// Closes the load with a value that is to be stored with a life, as [`Tokens::put_for`] gives one. If memory is refused, the load
    /// stays open.
    ///
    /// ```
    /// # use rookdresser::{Found, Landed, Setup, Token, Tokens};
    /// # use std::time::Duration;
    /// # let mut cache = Tokens::<u64>::open(&Setup::of(100))?;
    /// let Found::Lead(id) = cache.seek(1, 1000)? else { unreachable!("nothing is there") };
    /// cache.land_for(id, 1, Token { token: 7, weight: 1 }, Duration::from_millis(10), 1000)?;
    /// assert_eq!(cache.look(1, 1010)?, Found::Absent);
    /// # Ok::<(), Box<dyn std::error::Error>>(())
    /// ```
    pub fn land_for(&mut self, id: u64, key: K, value: Token, life: Duration, now: u64) -> Result<Landed, Fault> {
        self.land_lived(id, key, value, Life::of(life), now)
    }

    #[inline]
    pub(crate) fn land_lived(&mut self, id: u64, key: K, value: Token, life: Life, now: u64) -> Result<Landed, Fault> {
        self.made_with_notice(|h, a, n| unsafe { (K::CALLS.land_keep)(h, id, key.given(), value, life.0, now, a, n) })
            .map(landed)
    }

    /// Closes the load with a value that is not to be stored. Takes no memory.
    ///
    /// ```
    /// # use rookdresser::{Found, Landed, Setup, Tokens};
    /// # let mut cache = Tokens::<u64>::open(&Setup::of(100))?;
    /// let Found::Lead(id) = cache.seek(1, 0)? else { unreachable!("nothing is there") };
    /// assert_eq!(cache.land_loose(id, 1, 0)?, Landed::Loose(1));
    /// # Ok::<(), Box<dyn std::error::Error>>(())
    /// ```
    pub fn land_loose(&mut self, id: u64, key: K, now: u64) -> Result<Landed, Fault> {
        self.made(|h, a| unsafe { (K::CALLS.land_loose)(h, id, key.given(), now, a) }).map(landed)
    }

    /// Closes the load with a failure. Takes no memory.
    ///
    /// ```
    /// # use rookdresser::{Found, Landed, Setup, Tokens};
    /// # let mut cache = Tokens::<u64>::open(&Setup::of(100))?;
    /// let Found::Lead(id) = cache.seek(1, 0)? else { unreachable!("nothing is there") };
    /// assert_eq!(cache.land_failed(id, 1, 0)?, Landed::Failed(1));
    /// # Ok::<(), Box<dyn std::error::Error>>(())
    /// ```
    pub fn land_failed(&mut self, id: u64, key: K, now: u64) -> Result<Landed, Fault> {
        self.made(|h, a| unsafe { (K::CALLS.land_failed)(h, id, key.given(), now, a) }).map(landed)
    }

    /// Takes the key's entry out, and tells whether an unexpired one was there. Its current load will store nothing.
    ///
    /// ```
    /// # use rookdresser::{Setup, Token, Tokens};
    /// # let mut cache = Tokens::<u64>::open(&Setup::of(100))?;
    /// cache.put(1, Token { token: 7, weight: 1 }, 0)?;
    /// assert_eq!((cache.drop_key(1, 0)?, cache.drop_key(1, 0)?), (true, false));
    /// # Ok::<(), Box<dyn std::error::Error>>(())
    /// ```
    pub fn drop_key(&mut self, key: K, now: u64) -> Result<bool, Fault> {
        self.made_with_notice(|h, a, n| unsafe { (K::CALLS.drop_key)(h, key.given(), now, a, n) })
            .map(|a| a.number != 0)
    }

    /// Lets nobody further join the key's current load, which will store nothing. Tells whether there was one.
    ///
    /// ```
    /// # use rookdresser::{Found, Landed, Setup, Tokens};
    /// # let mut cache = Tokens::<u64>::open(&Setup::of(100))?;
    /// let Found::Lead(id) = cache.seek(1, 0)? else { unreachable!("nothing is there") };
    /// assert_eq!(cache.forget(1, 0), Ok(true));
    /// assert_eq!(cache.land_loose(id, 1, 0)?, Landed::Loose(1));
    /// # Ok::<(), Box<dyn std::error::Error>>(())
    /// ```
    pub fn forget(&mut self, key: K, now: u64) -> Result<bool, Fault> {
        self.made(|h, a| unsafe { (K::CALLS.forget)(h, key.given(), now, a) }).map(|a| a.number != 0)
    }

    /// Takes every entry out. The open loads will store nothing.
    ///
    /// ```
    /// # use rookdresser::{Setup, Token, Tokens};
    /// # let mut cache = Tokens::<u64>::open(&Setup::of(100))?;
    /// cache.put(1, Token { token: 7, weight: 1 }, 0)?;
    /// cache.clear(0)?;
    /// assert_eq!(cache.notices().count(), 1);
    /// # Ok::<(), Box<dyn std::error::Error>>(())
    /// ```
    pub fn clear(&mut self, now: u64) -> Result<(), Fault> {
        self.made(|h, a| unsafe { sys::rd_clear(h, now, a) }).map(drop)
    }

    /// Takes every expired entry out.
    ///
    /// ```
    /// # use rookdresser::{Setup, Token, Tokens};
    /// # use std::time::Duration;
    /// // Entries expire after 10 milliseconds here.
    /// let mut cache = Tokens::<u64>::open(&Setup::of(100).after_write(Duration::from_millis(10)))?;
    /// cache.put(1, Token { token: 7, weight: 1 }, 1000)?;
    /// cache.clean(1010)?;
    /// assert_eq!(cache.notices().count(), 1);
    /// # Ok::<(), Box<dyn std::error::Error>>(())
    /// ```
    pub fn clean(&mut self, now: u64) -> Result<(), Fault> {
        self.made(|h, a| unsafe { sys::rd_clean(h, now, a) }).map(drop)
    }

    /// Moves the border between window and main by one entry: makes the window wider, or narrower. Returns whether it moved: a window
    /// of all entries can't become wider, nor one of one entry narrower.
    ///
    /// `StepsSpent`, then `OutOfMemory`: nothing has moved. No entry leaves, and the notices of the call before are gone. A step, at the
    /// moment `now`. Only a slide that moves something takes memory.
    ///
    /// ```
    /// # use rookdresser::{Setup, Tokens};
    /// let mut cache = Tokens::<u64>::open(&Setup { window: Some(99), ..Setup::of(100) })?;
    /// assert_eq!((cache.slide(true, 0)?, cache.slide(true, 0)?), (true, false));
    /// # Ok::<(), Box<dyn std::error::Error>>(())
    /// ```
    pub fn slide(&mut self, wider: bool, now: u64) -> Result<bool, Fault> {
        self.made(|h, a| unsafe { sys::rd_slide(h, wider, now, a) }).map(|a| a.number != 0)
    }

    // Whether the latest call told that something left.
    pub(crate) fn has_notices(&self) -> bool {
        self.told > 0
    }

    /// What the latest call told to have left.
    ///
    /// ```
    /// # use rookdresser::{Cause, Notice, Setup, Token, Tokens};
    /// # let mut cache = Tokens::<u64>::open(&Setup::of(100))?;
    /// cache.put(1, Token { token: 7, weight: 1 }, 0)?;
    /// cache.drop_key(1, 0)?;
    /// let left: Vec<_> = cache.notices().collect();
    /// assert_eq!(left, [Notice { key: 1, token: 7, weight: 1, cause: Cause::Explicit }]);
    /// # Ok::<(), Box<dyn std::error::Error>>(())
    /// ```
    pub fn notices(&mut self) -> impl Iterator<Item = Notice<K>> + '_ {
        (0..self.told).map(|i| {
            if i == 0 && self.has_first {
                return noticed(self.first);
            }
            let mut notice = sys::Notice::default();
            unsafe { (K::CALLS.get_notice)(&mut self.handle, i, &mut notice) };
            noticed(notice)
        })
    }

    /// The numbers of the cache.
    ///
    /// ```
    /// # use rookdresser::{Setup, Tokens};
    /// # let mut cache = Tokens::<u64>::open(&Setup::of(100))?;
    /// cache.look(1, 0)?;
    /// assert_eq!((cache.numbers().lookups, cache.numbers().misses), (1, 1));
    /// # Ok::<(), Box<dyn std::error::Error>>(())
    /// ```
    pub fn numbers(&mut self) -> Numbers {
        let mut numbers = Numbers::default();
        unsafe { sys::rd_get_numbers(&mut self.handle, &mut numbers) };
        numbers
    }
}

impl Tokens {
    /// Looks all of them up, one after another, until one is refused or tells that something left. Returns how many were made and not
    /// refused.
    pub(crate) fn look_many(&mut self, looks: &mut [Looked]) -> usize {
        (self.told, self.has_first) = (0, false);
        let mut made = 0;
        // SAFETY: as of the calls above. The looks are lent for the call, and there are so many of them.
        let fault = unsafe { sys::rd_look_many(&mut self.handle, looks.as_mut_ptr(), looks.len(), &mut made) };
        // The library counts one that it refuses too.
        made as usize - usize::from(fault != 0)
    }
}

impl<K> Debug for Tokens<K> {
    fn fmt(&self, f: &mut Formatter<'_>) -> std::fmt::Result {
        f.debug_struct("Tokens").finish_non_exhaustive()
    }
}

impl<K> Drop for Tokens<K> {
    fn drop(&mut self) {
        unsafe { sys::rd_close(&mut self.handle) };
    }
}

fn found(a: Answer) -> Found {
    let token = Token { token: a.token, weight: a.weight };
    match a.kind {
        1 => Found::Hit(token),
        3 => Found::HitLead(token, a.number),
        4 => Found::Join(a.number),
        5 => Found::Lead(a.number),
        _ => Found::Absent,
    }
}

#[inline]
fn noticed<K>(notice: sys::Notice<K>) -> Notice<K> {
    // By their numbers in `rookdresser.h`, which begin at 1.
    const CAUSES: [Cause; 4] = [Cause::Explicit, Cause::Replaced, Cause::Expired, Cause::Size];
    let sys::Notice { key, token, weight, cause } = notice;
    Notice { key, token, weight, cause: CAUSES[(cause as usize).wrapping_sub(1) & 3] }
}

fn landed(a: Answer) -> Landed {
    match a.kind {
        6 => Landed::Kept(a.number),
        7 => Landed::Loose(a.number),
        8 => Landed::Failed(a.number),
        _ => Landed::Gone,
    }
}
