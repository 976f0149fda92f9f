//! A setup by calls.
use crate::Setup;
use std::time::Duration;

impl Setup {
    /// This setup with a window of so many entries, which then stays as it is: 1 to `entries`.
    ///
    /// ```
    /// # use rookdresser::Setup;
    /// assert_eq!(Setup::of(100).window(10), Setup { window: Some(10), ..Setup::of(100) });
    /// ```
    pub const fn window(self, entries: u32) -> Setup {
        Setup { window: Some(entries), ..self }
    }

    /// This setup with a window that follows the stream of look-ups, or has a hundredth of the entries. [`Setup::adaptive`] has the range.
    ///
    /// ```
    /// # use rookdresser::Setup;
    /// assert_eq!(Setup::of(1000).adaptive(false), Setup { adaptive: Some(false), ..Setup::of(1000) });
    /// ```
    pub const fn adaptive(self, follows: bool) -> Setup {
        Setup { adaptive: Some(follows), ..self }
    }

    /// This setup with so many loads open at most: 1 to 4,096.
    ///
    /// ```
    /// # use rookdresser::Setup;
    /// assert_eq!(Setup::of(100).flights(64), Setup { flights: 64, ..Setup::of(100) });
    /// ```
    pub const fn flights(self, most: u32) -> Setup {
        Setup { flights: most, ..self }
    }

    /// This setup with a limit of what all entries weigh together: 1 to 2^48.
    ///
    /// ```
    /// # use rookdresser::Setup;
    /// assert_eq!(Setup::of(100).bound(1 << 20), Setup { bound: 1 << 20, ..Setup::of(100) });
    /// ```
    pub const fn bound(self, weight: u64) -> Setup {
        Setup { bound: weight, ..self }
    }

    /// This setup with entries that expire so long after they were written, or never if that is zero. So it is of the other durations.
    /// docs/GUIDE.md, 'Entries that have expired', says when they leave.
    ///
    /// ```
    /// use rookdresser::Setup;
    /// use std::time::Duration;
    ///
    /// let setup = Setup::of(5000).after_write(Duration::from_secs(60));
    /// assert_eq!(setup, Setup { after_write: Duration::from_secs(60), ..Setup::of(5000) });
    /// ```
    pub const fn after_write(self, age: Duration) -> Setup {
        Setup { after_write: age, ..self }
    }

    /// This setup with entries that expire so long after they were used.
    ///
    /// ```
    /// # use rookdresser::Setup;
    /// # use std::time::Duration;
    /// let setup = Setup::of(5000).after_access(Duration::from_secs(60));
    /// assert_eq!(setup, Setup { after_access: Duration::from_secs(60), ..Setup::of(5000) });
    /// ```
    pub const fn after_access(self, time: Duration) -> Setup {
        Setup { after_access: time, ..self }
    }

    /// This setup with entries that are due for a further load so long after they were written: below `after_write`, if both are set.
    ///
    /// ```
    /// # use rookdresser::Setup;
    /// # use std::time::Duration;
    /// let setup = Setup::of(5000).refresh(Duration::from_secs(50));
    /// assert_eq!(setup, Setup { refresh: Duration::from_secs(50), ..Setup::of(5000) });
    /// ```
    pub const fn refresh(self, age: Duration) -> Setup {
        Setup { refresh: age, ..self }
    }
}
