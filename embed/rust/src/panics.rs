//! Calls of the caller's code that may panic, made one after another, whatever the ones before did.
//!
//! Two rules of Rust's are minded so. A drop that panics while a panic is under way ends the process: what is dropped together is
//! dropped one by one here, and what a function owns while it calls the caller's code is `Guarded`. And what a function has returned
//! already is never dropped if a drop at its end panics: what may panic is dropped before.
use std::any::Any;
use std::collections::HashMap;
use std::panic::{catch_unwind, resume_unwind, AssertUnwindSafe};

/// The first panic of some calls, if one panicked.
#[derive(Default)]
pub(crate) struct Panics(Option<Box<dyn Any + Send>>);

impl Panics {
    /// Makes a call, and returns what it returned, if it didn't panic.
    #[inline]
    pub(crate) fn of<T>(&mut self, call: impl FnOnce() -> T) -> Option<T> {
        match catch_unwind(AssertUnwindSafe(call)) {
            Ok(returned) => Some(returned),
            Err(panic) => {
                self.0.get_or_insert(panic);
                None
            }
        }
    }

    /// Returns the thing if no call panicked; else drops it, and passes the first panic on. If another panic is under way, that one
    /// goes on, so the thing is returned and the calls' panics are lost.
    #[inline]
    pub(crate) fn checked<T>(self, thing: T) -> T {
        if self.0.is_none() || std::thread::panicking() {
            return thing;
        }
        self.passed_on(thing)
    }

    #[cold]
    fn passed_on<T>(mut self, thing: T) -> ! {
        self.of(|| drop(thing));
        resume_unwind(self.0.expect("there is one"))
    }

    #[inline]
    pub(crate) fn is_none(&self) -> bool {
        self.0.is_none()
    }

    /// Passes the first panic on, as `checked` does.
    #[inline]
    pub(crate) fn pass_on(self) {
        self.checked(());
    }
}

/// A thing of the caller's that a function owns while it calls the caller's code. If a panic of that code drops it, a panic of its
/// own drop is lost, and doesn't end the process.
pub(crate) struct Guarded<T>(Option<T>);

impl<T> Guarded<T> {
    #[inline]
    pub(crate) fn of(thing: T) -> Self {
        Guarded(Some(thing))
    }

    #[inline]
    pub(crate) fn get(&self) -> &T {
        self.0.as_ref().expect("it is taken once")
    }

    pub(crate) fn get_mut(&mut self) -> &mut T {
        self.0.as_mut().expect("it is taken once")
    }

    #[inline]
    pub(crate) fn take(mut self) -> T {
        let thing = self.0.take().expect("it is taken once");
        // It owns nothing more.
        std::mem::forget(self);
        thing
    }
}

impl<T> Drop for Guarded<T> {
    #[inline]
    fn drop(&mut self) {
        if let Some(thing) = self.0.take() {
            let mut panics = Panics::default();
            panics.of(|| drop(thing));
            panics.pass_on();
        }
    }
}

/// A map of the caller's keys or values, each of which is dropped as if it were `Guarded`.
pub(crate) struct GuardedMap<K, V>(HashMap<K, V>);

impl<K, V> GuardedMap<K, V> {
    pub(crate) fn of(map: HashMap<K, V>) -> Self {
        GuardedMap(map)
    }

    pub(crate) fn get_mut(&mut self) -> &mut HashMap<K, V> {
        &mut self.0
    }

    pub(crate) fn take(mut self) -> HashMap<K, V> {
        std::mem::take(&mut self.0)
    }
}

impl<K, V> Drop for GuardedMap<K, V> {
    fn drop(&mut self) {
        let mut panics = Panics::default();
        for (key, value) in self.0.drain() {
            panics.of(|| drop(value));
            panics.of(|| drop(key));
        }
        panics.pass_on();
    }
}
