//! The declarations of `rookdresser.h`, written by hand. `tools/gate/check_bindings` compares the two, and below the compiler compares
//! sizes and places with those of the header's structs.
use crate::OpenError;
use std::mem::offset_of;

/// The header's `RD_VERSION`.
pub(crate) const VERSION: u64 = 2000;

/// What the library keeps a cache or an adviser behind.
#[repr(C)]
#[derive(Debug)]
pub struct Handle {
    pub at: *mut u8,
    pub is_open: bool,
}

impl Handle {
    /// A handle that is closed, if the library is of this version. Panics on a processor older than x86-64-v2: the library is marked for
    /// such a one, and glibc would refuse it in a sentence, but Rust's own linker drops that mark.
    pub(crate) fn closed() -> Result<Handle, OpenError> {
        assert!(is_v2(), "rookdresser needs a processor of x86-64-v2 or later");
        // SAFETY: it takes nothing, and returns a number.
        match unsafe { rd_version() } {
            VERSION => Ok(Handle { at: std::ptr::null_mut(), is_open: false }),
            library => Err(OpenError::OtherVersion { library }),
        }
    }
}

fn is_v2() -> bool {
    #[cfg(target_arch = "x86_64")]
    return is_x86_feature_detected!("ssse3")
        && is_x86_feature_detected!("sse4.1")
        && is_x86_feature_detected!("sse4.2")
        && is_x86_feature_detected!("popcnt");
    #[cfg(not(target_arch = "x86_64"))]
    return true;
}

// By the header, on a machine of 64 bits.
const _: () = {
    assert!(size_of::<Handle>() == 16 && offset_of!(Handle, is_open) == 8);
    assert!(size_of::<Token>() == 16 && offset_of!(Token, weight) == 8);
    assert!(size_of::<Settings>() == 48 && offset_of!(Settings, flights) == 8);
    assert!(offset_of!(Settings, bound) == 16 && offset_of!(Settings, refresh) == 40);
    assert!(size_of::<Answer>() == 32 && offset_of!(Answer, weight) == 4);
    assert!(offset_of!(Answer, token) == 8 && offset_of!(Answer, notices) == 24);
    assert!(size_of::<Looked>() == 48 && offset_of!(Looked, now) == 8 && offset_of!(Looked, answer) == 16);
    assert!(size_of::<Name>() == 32 && offset_of!(Name, length) == 24);
    assert!(size_of::<Notice<u64>>() == 24 && offset_of!(Notice<u64>, cause) == 20);
    assert!(size_of::<Notice<Name>>() == 48 && offset_of!(Notice<Name>, token) == 32);
    assert!(size_of::<Numbers>() == 88 && offset_of!(Numbers, step) == 64);
};

/// A number that stands for a value of the caller's, with its weight.
#[repr(C)]
#[derive(Clone, Copy, Debug, Default, PartialEq, Eq)]
pub struct Token {
    /// The caller's number.
    pub token: u64,
    /// What the value weighs.
    pub weight: u32,
}

/// What the library opens a cache for: a [`Setup`](crate::Setup) whose window is chosen.
#[repr(C)]
#[derive(Debug)]
pub struct Settings {
    pub entries: u32,
    pub window: u32,
    pub flights: u32,
    pub bound: u64,
    pub after_write: u64,
    pub after_access: u64,
    pub refresh: u64,
}

#[repr(C)]
#[derive(Clone, Copy, Debug, Default, PartialEq, Eq)]
pub struct Answer {
    pub kind: u32,
    pub weight: u32,
    pub token: u64,
    pub number: u64,
    pub notices: u64,
}

/// One of the look-ups of `rd_look_many`.
#[repr(C)]
#[derive(Clone, Copy, Debug, Default, PartialEq, Eq)]
pub struct Looked {
    pub key: u64,
    pub now: u64,
    pub answer: Answer,
}

/// A key of at most 24 bytes, in the value itself.
#[repr(C)]
#[derive(Clone, Copy, Debug, Default, PartialEq, Eq, Hash)]
pub struct Name {
    // Zeros stand behind the bytes, so that equal names are equal values.
    bytes: [u8; 24],
    length: u64,
}

impl Name {
    /// The name of these bytes, if they are at most 24.
    ///
    /// ```
    /// use rookdresser::{Found, Name, Setup, Tokens};
    ///
    /// let name = Name::new("a page").expect("it has 24 bytes at most");
    /// let mut cache = Tokens::<Name>::open(&Setup::of(100))?;
    /// assert_eq!(cache.look(name, 0), Ok(Found::Absent));
    /// assert_eq!(Name::new("a name of more than 24 bytes"), None);
    /// # Ok::<(), Box<dyn std::error::Error>>(())
    /// ```
    pub fn new(bytes: impl AsRef<[u8]>) -> Option<Name> {
        let bytes = bytes.as_ref();
        let mut name = Name { length: bytes.len() as u64, ..Name::default() };
        name.bytes.get_mut(..bytes.len())?.copy_from_slice(bytes);
        Some(name)
    }

    /// Its bytes.
    ///
    /// ```
    /// # use rookdresser::Name;
    /// assert_eq!(Name::new("a page").unwrap().as_bytes(), b"a page");
    /// ```
    pub fn as_bytes(&self) -> &[u8] {
        &self.bytes[..self.length as usize]
    }
}

/// An entry that left. `cause` is as in `rookdresser.h`: 1 dropped or cleared, 2 replaced, 3 expired, 4 evicted.
#[repr(C)]
#[derive(Clone, Copy, Debug, Default)]
pub struct Notice<K> {
    pub key: K,
    pub token: u64,
    pub weight: u32,
    pub cause: u32,
}

/// The numbers of a cache.
#[repr(C)]
#[derive(Clone, Copy, Debug, Default, PartialEq, Eq)]
pub struct Numbers {
    /// Calls of `look` and `seek`.
    pub lookups: u64,
    /// Those that found the key.
    pub hits: u64,
    /// Those that didn't.
    pub misses: u64,
    /// Landings with a value.
    pub loads: u64,
    /// Landings without one.
    pub failed: u64,
    /// Entries that left because they expired or were evicted.
    pub evicted: u64,
    /// Entries held now.
    pub entries: u64,
    /// What these weigh together.
    pub weight: u64,
    /// Calls made that weren't refused, and [slides](crate::Tokens::slide) of the window, the cache's own included.
    pub step: u64,
    /// The latest moment, in milliseconds of the clock by which the calls were made.
    pub latest: u64,
    /// Loads that are open now.
    pub flights: u64,
}

impl Numbers {
    /// The numbers of two caches together; the latest moment is the later one.
    ///
    /// ```
    /// use rookdresser::Numbers;
    ///
    /// let one = Numbers { hits: 3, latest: 10, ..Numbers::default() };
    /// let both = one.and(Numbers { hits: 4, latest: 5, ..Numbers::default() });
    /// assert_eq!((both.hits, both.latest), (7, 10));
    /// ```
    pub fn and(self, other: Numbers) -> Numbers {
        Numbers {
            lookups: self.lookups + other.lookups,
            hits: self.hits + other.hits,
            misses: self.misses + other.misses,
            loads: self.loads + other.loads,
            failed: self.failed + other.failed,
            evicted: self.evicted + other.evicted,
            entries: self.entries + other.entries,
            weight: self.weight + other.weight,
            step: self.step + other.step,
            latest: self.latest.max(other.latest),
            flights: self.flights + other.flights,
        }
    }
}

unsafe extern "C" {
    pub fn rd_version() -> u64;
    #[cfg(test)]
    pub fn rd_check(setup: *const Settings) -> u64;
    pub fn rd_open(setup: *const Settings, cache: *mut Handle) -> u64;
    pub fn rd_open_names(setup: *const Settings, cache: *mut Handle) -> u64;
    pub fn rd_close(cache: *mut Handle) -> u64;
    pub fn rd_look(cache: *mut Handle, key: u64, now: u64, answer: *mut Answer) -> u64;
    pub fn rd_peek(cache: *mut Handle, key: u64, now: u64, answer: *mut Answer) -> u64;
    pub fn rd_look_many(cache: *mut Handle, looks: *mut Looked, n: usize, made: *mut u64) -> u64;
    pub fn rd_seek(cache: *mut Handle, key: u64, now: u64, answer: *mut Answer) -> u64;
    pub fn rd_land_loose(cache: *mut Handle, id: u64, key: u64, now: u64, answer: *mut Answer) -> u64;
    pub fn rd_land_failed(cache: *mut Handle, id: u64, key: u64, now: u64, answer: *mut Answer) -> u64;
    pub fn rd_forget(cache: *mut Handle, key: u64, now: u64, answer: *mut Answer) -> u64;
    pub fn rd_look_name(cache: *mut Handle, key: *const Name, now: u64, answer: *mut Answer) -> u64;
    pub fn rd_peek_name(cache: *mut Handle, key: *const Name, now: u64, answer: *mut Answer) -> u64;
    pub fn rd_seek_name(cache: *mut Handle, key: *const Name, now: u64, answer: *mut Answer) -> u64;
    pub fn rd_land_loose_name(cache: *mut Handle, id: u64, key: *const Name, now: u64, answer: *mut Answer) -> u64;
    pub fn rd_land_failed_name(cache: *mut Handle, id: u64, key: *const Name, now: u64, answer: *mut Answer) -> u64;
    pub fn rd_forget_name(cache: *mut Handle, key: *const Name, now: u64, answer: *mut Answer) -> u64;
    pub fn rd_land_for(
        cache: *mut Handle,
        id: u64,
        key: u64,
        value: Token,
        life: u32,
        now: u64,
        answer: *mut Answer,
        first: *mut Notice<u64>,
    ) -> u64;
    pub fn rd_put_for(
        cache: *mut Handle,
        key: u64,
        value: Token,
        life: u32,
        now: u64,
        answer: *mut Answer,
        first: *mut Notice<u64>,
    ) -> u64;
    pub fn rd_drop_key_with_notice(
        cache: *mut Handle,
        key: u64,
        now: u64,
        answer: *mut Answer,
        first: *mut Notice<u64>,
    ) -> u64;
    pub fn rd_land_name_for(
        cache: *mut Handle,
        id: u64,
        key: *const Name,
        value: Token,
        life: u32,
        now: u64,
        answer: *mut Answer,
        first: *mut Notice<Name>,
    ) -> u64;
    pub fn rd_put_name_for(
        cache: *mut Handle,
        key: *const Name,
        value: Token,
        life: u32,
        now: u64,
        answer: *mut Answer,
        first: *mut Notice<Name>,
    ) -> u64;
    pub fn rd_drop_key_name_with_notice(
        cache: *mut Handle,
        key: *const Name,
        now: u64,
        answer: *mut Answer,
        first: *mut Notice<Name>,
    ) -> u64;
    pub fn rd_clear(cache: *mut Handle, now: u64, answer: *mut Answer) -> u64;
    pub fn rd_clean(cache: *mut Handle, now: u64, answer: *mut Answer) -> u64;
    pub fn rd_slide(cache: *mut Handle, wider: bool, now: u64, answer: *mut Answer) -> u64;
    pub fn rd_get_notice(cache: *mut Handle, i: u64, notice: *mut Notice<u64>) -> u64;
    pub fn rd_get_notice_name(cache: *mut Handle, i: u64, notice: *mut Notice<Name>) -> u64;
    pub fn rd_get_numbers(cache: *mut Handle, numbers: *mut Numbers) -> u64;
    pub fn rd_open_adviser(entries: u32, adviser: *mut Handle) -> u64;
    pub fn rd_advise(adviser: *mut Handle, keys: *const u64, n: usize, window: *mut u32) -> u64;
    pub fn rd_close_adviser(adviser: *mut Handle) -> u64;
}
