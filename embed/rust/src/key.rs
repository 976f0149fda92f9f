//! The two kinds of keys, each with the functions of `rookdresser.h` for such keys.
use crate::sys::*;

/// A key of the library's own: a number, or a [`Name`].
pub trait Key: Kind {}

impl Key for u64 {}
impl Key for Name {}

/// What makes a type a key. Nobody outside can name it, so nobody can make a further kind.
pub trait Kind: Copy + Default {
    /// How a key is handed over.
    #[doc(hidden)]
    type Given;
    #[doc(hidden)]
    const CALLS: Calls<Self, Self::Given>;

    /// The key as the functions take it. It is read while the key lives.
    #[doc(hidden)]
    fn given(&self) -> Self::Given;
}

type Cache = *mut Handle;
type Told = *mut Answer;

/// The functions for keys of a kind. The pointers owe what the head of `rookdresser.h` says.
#[derive(Debug)]
pub struct Calls<K, G> {
    pub(crate) open: unsafe extern "C" fn(*const Settings, Cache) -> u64,
    pub(crate) look: unsafe extern "C" fn(Cache, G, u64, Told) -> u64,
    pub(crate) peek: unsafe extern "C" fn(Cache, G, u64, Told) -> u64,
    pub(crate) seek: unsafe extern "C" fn(Cache, G, u64, Told) -> u64,
    pub(crate) put: unsafe extern "C" fn(Cache, G, Token, u32, u64, Told, *mut Notice<K>) -> u64,
    pub(crate) land_keep: unsafe extern "C" fn(Cache, u64, G, Token, u32, u64, Told, *mut Notice<K>) -> u64,
    pub(crate) land_loose: unsafe extern "C" fn(Cache, u64, G, u64, Told) -> u64,
    pub(crate) land_failed: unsafe extern "C" fn(Cache, u64, G, u64, Told) -> u64,
    pub(crate) drop_key: unsafe extern "C" fn(Cache, G, u64, Told, *mut Notice<K>) -> u64,
    pub(crate) forget: unsafe extern "C" fn(Cache, G, u64, Told) -> u64,
    pub(crate) get_notice: unsafe extern "C" fn(Cache, u64, *mut Notice<K>) -> u64,
}

impl Kind for u64 {
    type Given = u64;
    const CALLS: Calls<u64, u64> = Calls {
        open: rd_open,
        look: rd_look,
        peek: rd_peek,
        seek: rd_seek,
        put: rd_put_for,
        land_keep: rd_land_for,
        land_loose: rd_land_loose,
        land_failed: rd_land_failed,
        drop_key: rd_drop_key_with_notice,
        forget: rd_forget,
        get_notice: rd_get_notice,
    };

    #[inline(always)]
    fn given(&self) -> u64 {
        *self
    }
}

impl Kind for Name {
    type Given = *const Name;
    const CALLS: Calls<Name, *const Name> = Calls {
        open: rd_open_names,
        look: rd_look_name,
        peek: rd_peek_name,
        seek: rd_seek_name,
        put: rd_put_name_for,
        land_keep: rd_land_name_for,
        land_loose: rd_land_loose_name,
        land_failed: rd_land_failed_name,
        drop_key: rd_drop_key_name_with_notice,
        forget: rd_forget_name,
        get_notice: rd_get_notice_name,
    };

    #[inline(always)]
    fn given(&self) -> *const Name {
        self
    }
}
