//! A small setup, an error, and what has to hold of a cache in which nothing goes on.
#![allow(dead_code)] // not every test needs all of them
use rookdresser::{Loading, Setup};
use std::panic::{catch_unwind, AssertUnwindSafe};

pub const SETUP: Setup = Setup { flights: 8, bound: 1000, ..Setup::of(16) };

// An error of which there is one, as those of input and output are.
#[derive(Debug, PartialEq)]
pub struct Down;

impl std::fmt::Display for Down {
    fn fmt(&self, f: &mut std::fmt::Formatter<'_>) -> std::fmt::Result {
        f.write_str("the source is down")
    }
}

pub fn panics(work: impl FnOnce()) -> bool {
    catch_unwind(AssertUnwindSafe(work)).is_err()
}

pub fn holds_exactly<K, V, E, S>(cache: &Loading<K, V, E, S>) {
    let n = cache.numbers();
    assert_eq!((cache.kept(), n.flights), ((n.entries as usize, n.entries as usize), 0));
}
