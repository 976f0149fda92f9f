//! An adviser on the window of a cache: safe calls over `rookdresser.h`.
use crate::setup::{in_range, OpenError, Setting};
use crate::sys::{self, Handle};
use crate::Fault;
use std::fmt::{Debug, Formatter};
use std::ops::RangeInclusive;

/// How many entries a cache may have for an adviser to advise it.
pub(crate) const ADVISED: RangeInclusive<u32> = 64..=1 << 22;

/// Says how many entries the window of a cache should hold, from the keys that are looked up: of one cache, or of several with one
/// setup together.
///
/// [`Loading`](crate::Loading) and [`Cache`](crate::Cache) have one of their own. Take one for [`Tokens`](crate::Tokens), whose window
/// [`slide`](crate::Tokens::slide) moves by one entry:
///
/// ```
/// use rookdresser::{Adviser, Found, Setup, Token, Tokens};
///
/// let mut adviser = Adviser::open(1000)?;
/// let mut window = adviser.wanted();
/// let mut cache = Tokens::<u64>::open(&Setup { window: Some(window), ..Setup::of(1000) })?;
/// for key in (0..100_000).map(|look| look / 10) {
///     if cache.look(key, 0)? == Found::Absent {
///         cache.put(key, Token { token: key, weight: 1 }, 0)?;
///     }
///     // If it is refused memory, it goes on with what it has seen.
///     let _ = adviser.saw(&[key]);
///     let wider = window < adviser.wanted();
///     if window != adviser.wanted() && cache.slide(wider, 0)? {
///         window = if wider { window + 1 } else { window - 1 };
///     }
/// }
/// # Ok::<(), Box<dyn std::error::Error>>(())
/// ```
///
/// Four small caches with windows of 1, 10, 40 and 100 hundredths look a sample of the keys up, and it wants the window of the one that
/// hits most. It keeps a sixteenth as many keys as the cache has entries, or 256, and no values.
pub struct Adviser {
    handle: Handle,
    wanted: u32,
}

// SAFETY: as of `Tokens`: `Box<Advising>`, to which the handle leads, owns all that it refers to, and each call that uses it takes
// `&mut self`.
unsafe impl Send for Adviser {}

impl Adviser {
    /// Opens an adviser for caches of 64 to 4,194,304 entries together. `BadSetup`, then `OutOfMemory`. Panics on a processor older
    /// than x86-64-v2.
    ///
    /// ```
    /// use rookdresser::Adviser;
    ///
    /// assert_eq!(Adviser::open(1000)?.wanted(), 100);
    /// let few = Adviser::open(63).unwrap_err();
    /// assert_eq!(few.to_string(), "entries is 63, and has to be from 64 to 4194304");
    /// # Ok::<(), rookdresser::OpenError>(())
    /// ```
    pub fn open(entries: u32) -> Result<Adviser, OpenError> {
        in_range(Setting::Entries, entries.into(), (*ADVISED.start()).into(), (*ADVISED.end()).into(), "")?;
        let mut handle = Handle::closed()?;
        // SAFETY: the handle is borrowed for the call, and closed: all bytes are zero.
        match unsafe { sys::rd_open_adviser(entries, &mut handle) } {
            0 => {
                let mut adviser = Adviser { handle, wanted: 0 };
                // To see no key takes no memory.
                let _ = adviser.saw(&[]);
                Ok(adviser)
            }
            1 => Err(OpenError::OutOfMemory),
            _ => unreachable!("the library's range is the one that was checked"),
        }
    }

    /// Takes note of the look-ups of these keys, in their order, whether they hit or not. `OutOfMemory` if a small cache was refused
    /// memory: it has not seen a key then, but all else is done. Don't show the keys again.
    ///
    /// A cache of names gives it a number for each name, as a hash is. Takes a lock of no kind. One key in 64 makes four look-ups in
    /// small caches, more of them do below 4,096 entries, and every other key does below 96.
    ///
    /// ```
    /// # use rookdresser::Adviser;
    /// # let mut adviser = Adviser::open(1000)?;
    /// adviser.saw(&[1, 2, 1])?;
    /// # Ok::<(), Box<dyn std::error::Error>>(())
    /// ```
    pub fn saw(&mut self, keys: &[u64]) -> Result<(), Fault> {
        // SAFETY: the handle was made by `rd_open_adviser`, is ours alone, and is lent for the call beside the keys, of which there are
        // so many, and a number of ours.
        match unsafe { sys::rd_advise(&mut self.handle, keys.as_ptr(), keys.len(), &mut self.wanted) } {
            0 => Ok(()),
            _ => Err(Fault::OutOfMemory),
        }
    }

    /// How many entries the window should hold: 1 to all entries, and 10 hundredths of them at first.
    ///
    /// ```
    /// # use rookdresser::Adviser;
    /// let mut adviser = Adviser::open(512)?;
    /// // Nobody asks for a key again: no window is better than the one at first.
    /// adviser.saw(&(0..10_000).collect::<Vec<_>>())?;
    /// assert_eq!(adviser.wanted(), 51);
    /// # Ok::<(), Box<dyn std::error::Error>>(())
    /// ```
    pub fn wanted(&self) -> u32 {
        self.wanted
    }
}

impl Debug for Adviser {
    fn fmt(&self, f: &mut Formatter<'_>) -> std::fmt::Result {
        f.debug_struct("Adviser").field("wanted", &self.wanted).finish_non_exhaustive()
    }
}

impl Drop for Adviser {
    fn drop(&mut self) {
        // SAFETY: the handle is ours alone, and open until now.
        unsafe { sys::rd_close_adviser(&mut self.handle) };
    }
}
