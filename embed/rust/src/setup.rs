//! Which setups open a cache, and why one doesn't.
use crate::adviser::ADVISED;
use crate::parts::{MOST_ENTRIES, MOST_SHARDS};
use crate::sys::{Settings, VERSION};
use crate::Fault;
use std::error::Error;
use std::fmt::{Display, Formatter, Result as Written};
use std::time::Duration;

/// What a cache is opened for. There is a call of each field's name.
///
/// The cache counts whole milliseconds: a duration is rounded up, and one of 2^64 milliseconds or more counts as the longest. Zero stands
/// for never.
#[derive(Clone, Copy, Debug, PartialEq, Eq)]
pub struct Setup {
    /// How many entries the cache may hold: 1 to 65,536, and more if [`Loading::open`](crate::Loading::open) divides them.
    pub entries: u32,
    /// How many of them the window may hold: 1 to `entries`. If it is given, the window stays as it is.
    pub window: Option<u32>,
    /// Whether the window follows the stream of look-ups, which needs a cache of 64 to 4,194,304 entries, all shards together, and a
    /// `window` that isn't given. If it isn't given, the window does so if it can. If it is false and no `window` is given, the window
    /// has a hundredth of the entries, and at least one.
    pub adaptive: Option<bool>,
    /// How many loads may be open: 1 to 4,096.
    pub flights: u32,
    /// How much the entries may weigh together: 1 to 2^48.
    pub bound: u64,
    /// An entry expires so long after it was written. It is never returned from then on, but stays until something removes it:
    /// docs/GUIDE.md, 'Entries that have expired', says what does.
    pub after_write: Duration,
    /// An entry expires so long after it was used; then as above.
    pub after_access: Duration,
    /// An entry is due for a further load so long after it was written: below `after_write`, if both are set.
    pub refresh: Duration,
}

impl Setup {
    /// A setup for so many entries, with 1,024 loads at most, no other limit, and a window that follows the stream if it can.
    ///
    /// ```
    /// use rookdresser::Setup;
    /// use std::time::Duration;
    ///
    /// let setup = Setup::of(5000).after_write(Duration::from_secs(60));
    /// assert_eq!((setup.entries, setup.window, setup.adaptive, setup.flights), (5000, None, None, 1024));
    /// ```
    pub const fn of(entries: u32) -> Setup {
        Setup {
            entries,
            window: None,
            adaptive: None,
            flights: 1024,
            bound: 1 << 48,
            after_write: Duration::ZERO,
            after_access: Duration::ZERO,
            refresh: Duration::ZERO,
        }
    }
}

impl Default for Setup {
    /// A setup for 1,000 entries.
    fn default() -> Setup {
        Setup::of(1000)
    }
}

/// A setting that has a range: a field of [`Setup`], or how many shards there are to be.
#[derive(Clone, Copy, Debug, PartialEq, Eq, Hash)]
#[non_exhaustive]
pub enum Setting {
    /// The number of [`Loading::sharded`](crate::Loading::sharded).
    Shards,
    /// [`Setup::entries`].
    Entries,
    /// [`Setup::window`].
    Window,
    /// [`Setup::flights`].
    Flights,
    /// [`Setup::bound`].
    Bound,
    /// [`Setup::refresh`].
    Refresh,
    /// [`Setup::adaptive`], of which false counts as 0 and true as 1.
    Adaptive,
}

impl Display for Setting {
    fn fmt(&self, f: &mut Formatter<'_>) -> Written {
        f.pad(match self {
            Setting::Shards => "shards",
            Setting::Entries => "entries",
            Setting::Window => "window",
            Setting::Flights => "flights",
            Setting::Bound => "bound",
            Setting::Refresh => "refresh",
            Setting::Adaptive => "adaptive",
        })
    }
}

/// A setting that is out of its range.
///
/// ```
/// use rookdresser::{Setting, Setup};
///
/// let bad = Setup { window: Some(20), ..Setup::of(10) }.check().unwrap_err();
/// assert_eq!((bad.setting, bad.value, bad.least, bad.most), (Setting::Window, 20, 1, 10));
/// assert_eq!(bad.to_string(), "window is 20, and has to be from 1 to 10, the entries");
/// ```
#[derive(Clone, Copy, Debug, PartialEq, Eq, Hash)]
pub struct BadSetting {
    /// Which it is.
    pub setting: Setting,
    /// What it was set to. Here `refresh` counts in milliseconds, as in the cache, since all other settings that have a range are numbers.
    pub value: u64,
    /// The least that it may be.
    pub least: u64,
    /// The most that it may be.
    pub most: u64,
    // What the range depends on, in words that follow it.
    depends: &'static str,
}

impl Display for BadSetting {
    fn fmt(&self, f: &mut Formatter<'_>) -> Written {
        let BadSetting { setting, value, least, most, depends } = self;
        match setting {
            Setting::Refresh => {
                let [refresh, after_write] = [*value, most + 1].map(Duration::from_millis);
                write!(f, "refresh is {refresh:?}, and has to be below after_write, {after_write:?}")
            }
            Setting::Adaptive => write!(f, "adaptive is true, and has to be false or not given{depends}"),
            _ => write!(f, "{setting} is {value}, and has to be from {least} to {most}{depends}"),
        }
    }
}

impl Error for BadSetting {}

/// Why a cache didn't open.
///
/// ```
/// use rookdresser::{Loading, OpenError, Setting, Setup};
///
/// match Loading::<u64, u64, ()>::open(&Setup::of(0)) {
///     Err(OpenError::BadSetup(bad)) => assert_eq!(bad.setting, Setting::Entries),
///     _ => unreachable!("no cache holds 0 entries"),
/// }
/// ```
#[derive(Clone, Copy, Debug, PartialEq, Eq, Hash)]
#[non_exhaustive]
pub enum OpenError {
    /// A setting is out of its range.
    BadSetup(BadSetting),
    /// An allocation failed.
    OutOfMemory,
    /// The library that was linked is of another version than this crate.
    OtherVersion {
        /// The library's version: a million times its first number, a thousand times its second, and its third.
        library: u64,
    },
}

impl Display for OpenError {
    fn fmt(&self, f: &mut Formatter<'_>) -> Written {
        match self {
            OpenError::BadSetup(bad) => bad.fmt(f),
            OpenError::OutOfMemory => Fault::OutOfMemory.fmt(f),
            OpenError::OtherVersion { library } => {
                let [library, own] = [*library, VERSION].map(spelled);
                write!(f, "librookdresser is of version {library}, and this crate is of {own}")
            }
        }
    }
}

// The version of this number.
fn spelled(version: u64) -> String {
    format!("{}.{}.{}", version / 1_000_000, version / 1_000 % 1_000, version % 1_000)
}

impl Error for OpenError {}

impl From<BadSetting> for OpenError {
    fn from(bad: BadSetting) -> OpenError {
        OpenError::BadSetup(bad)
    }
}

impl Setup {
    /// Tells whether [`Loading::open`](crate::Loading::open) takes the setup, or else the first setting that is out of its range.
    ///
    /// ```
    /// use rookdresser::Setup;
    /// use std::time::Duration;
    ///
    /// assert_eq!(Setup::of(70_000).check(), Ok(()));
    /// let bad = Setup::of(8).after_write(Duration::from_millis(5)).refresh(Duration::from_secs(1)).check().unwrap_err();
    /// assert_eq!(bad.to_string(), "refresh is 1s, and has to be below after_write, 5ms");
    /// ```
    pub fn check(&self) -> Result<(), BadSetting> {
        if self.has_bound() {
            return self.checked(MOST_ENTRIES, " if bound is set", 1);
        }
        self.checked(MOST_SHARDS * MOST_ENTRIES, "", 1)
    }

    /// The same of a cache of so many shards, each of this setup.
    pub(crate) fn check_sharded(&self, shards: usize) -> Result<(), BadSetting> {
        in_range(Setting::Shards, shards as u64, 1, MOST_SHARDS.into(), "")?;
        self.checked(MOST_ENTRIES, "", shards as u32)
    }

    /// The same of a cache that makes no slides by itself.
    pub(crate) fn check_tokens(&self) -> Result<(), BadSetting> {
        Setup { adaptive: None, ..*self }.check_sharded(1)?;
        self.check_adaptive(false, " if the window moves only by `slide`")
    }

    /// Whether the entries' weight is limited.
    pub(crate) fn has_bound(&self) -> bool {
        self.bound != Setup::of(1).bound
    }

    /// Whether the window follows the stream, in a cache of so many entries, all shards together. The setup is within its ranges.
    pub(crate) fn is_adaptive(&self, entries: u32) -> bool {
        self.adaptive.unwrap_or(self.window.is_none() && ADVISED.contains(&entries))
    }

    /// The window, if it doesn't follow the stream.
    pub(crate) fn fixed_window(&self) -> u32 {
        self.window.unwrap_or((self.entries / 100).max(1))
    }

    /// What the library is handed.
    pub(crate) fn with_window(&self, window: u32) -> Settings {
        let Setup { entries, flights, bound, .. } = *self;
        let [after_write, after_access, refresh] = self.milliseconds();
        Settings { entries, window, flights, bound, after_write, after_access, refresh }
    }

    /// `after_write`, `after_access` and `refresh` as the library counts them: in milliseconds, 0 for never.
    pub(crate) fn milliseconds(&self) -> [u64; 3] {
        // Rounded up: a short duration isn't 0.
        [self.after_write, self.after_access, self.refresh]
            .map(|duration| u64::try_from(duration.as_nanos().div_ceil(1_000_000)).unwrap_or(u64::MAX))
    }

    fn checked(&self, most_entries: u32, depends: &'static str, shards: u32) -> Result<(), BadSetting> {
        let Setup { entries, flights, bound, .. } = *self;
        let [after_write, _, refresh] = self.milliseconds();
        in_range(Setting::Entries, entries.into(), 1, most_entries.into(), depends)?;
        in_range(Setting::Window, self.fixed_window().into(), 1, entries.into(), ", the entries")?;
        in_range(Setting::Bound, bound, 1, 1 << 48, "")?;
        in_range(Setting::Flights, flights.into(), 1, 1 << 12, "")?;
        if after_write != 0 && refresh >= after_write {
            let (setting, value, most) = (Setting::Refresh, refresh, after_write - 1);
            return Err(BadSetting { setting, value, least: 0, most, depends: "" });
        }
        self.check_adaptive(self.window.is_none(), " if window is given")?;
        self.check_adaptive(
            ADVISED.contains(&(entries * shards)),
            " unless the cache has 64 to 4194304 entries, all shards together",
        )
    }

    fn check_adaptive(&self, it_may_be: bool, depends: &'static str) -> Result<(), BadSetting> {
        if it_may_be || self.adaptive != Some(true) {
            return Ok(());
        }
        Err(BadSetting { setting: Setting::Adaptive, value: 1, least: 0, most: 0, depends })
    }
}

/// Tells whether the setting is from the least to the most that it may be.
pub(crate) fn in_range(
    setting: Setting,
    value: u64,
    least: u64,
    most: u64,
    depends: &'static str,
) -> Result<(), BadSetting> {
    if (least..=most).contains(&value) {
        return Ok(());
    }
    Err(BadSetting { setting, value, least, most, depends })
}

#[cfg(test)]
mod tests {
    use super::{OpenError, Setting, Setup};
    use crate::sys::rd_check;

    #[test]
    fn a_library_of_another_version_is_named_with_its_version() {
        let said = OpenError::OtherVersion { library: 1_002_003 }.to_string();
        let own = env!("CARGO_PKG_VERSION").trim_end_matches("-dev");
        assert_eq!(said, format!("librookdresser is of version 1.2.3, and this crate is of {own}"));
    }

    #[test]
    fn a_shard_s_ranges_are_the_library_s() {
        const SETTINGS: [Setting; 4] = [Setting::Entries, Setting::Window, Setting::Flights, Setting::Bound];
        let mut bad = [0; 4];
        for entries in [0, 1, 2, 65_535, 65_536, 65_537, u32::MAX] {
            for window in [0, 1, 2, 3, 65_536, 65_537] {
                for flights in [0, 1, 4096, 4097] {
                    for bound in [0, 1, 1 << 48, (1 << 48) + 1] {
                        let setup = Setup { entries, window: Some(window), flights, bound, ..Setup::of(1) };
                        // SAFETY: the settings are borrowed for the call, which only reads them.
                        let checked = unsafe { rd_check(&setup.with_window(window)) };
                        let library_s = SETTINGS.get((checked as usize).wrapping_sub(1));
                        let found = setup.check_sharded(1).err().map(|bad| bad.setting);
                        assert_eq!(found, library_s.copied(), "{setup:?}");
                        if let Some(setting) = found {
                            bad[setting as usize - Setting::Entries as usize] += 1;
                        }
                    }
                }
            }
        }
        // 3 of 7 entries, 14 of 24 windows of the other 4, then 2 of 4 bounds of the other 10, and 2 of 4 flights of the rest.
        assert_eq!(bad, [3 * 6 * 4 * 4, 14 * 4 * 4, 10 * 2 * 2, 10 * 2 * 4]);
    }
}
