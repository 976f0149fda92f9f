//! Things at places that are used again.
use std::collections::TryReserveError;
use std::ops::{Index, IndexMut};

/// Things, each at a place of its own until it is removed. Memory is kept for the most that there were at once.
pub(crate) struct Slab<T> {
    places: Vec<Option<T>>,
    free: Vec<u32>,
    // So many things are there once it is full. There may be some more.
    full: usize,
}

impl<T> Slab<T> {
    /// Nothing, with memory for nothing. Its places double until it is full, and few are added then.
    pub(crate) const fn of(full: usize) -> Slab<T> {
        Slab { places: Vec::new(), free: Vec::new(), full }
    }

    /// The place that the next thing gets.
    #[inline]
    pub(crate) fn next(&self) -> u32 {
        self.free.last().copied().unwrap_or(self.places.len() as u32)
    }

    /// Keeps the thing, and returns its place.
    #[inline]
    pub(crate) fn insert(&mut self, thing: T) -> u32 {
        if let Some(at) = self.free.pop() {
            self.places[at as usize] = Some(thing);
            return at;
        }
        if self.places.len() == self.places.capacity() {
            self.grow();
        }
        self.places.push(Some(thing));
        self.places.len() as u32 - 1
    }

    #[cold]
    fn grow(&mut self) {
        self.places.reserve_exact(self.more());
    }

    // How many places are added to those that are all taken.
    fn more(&self) -> usize {
        let (there, least) = (self.places.len(), 8);
        if there < self.full {
            there.max(least).min(self.full - there)
        } else {
            (there / 8).max(least)
        }
    }

    /// Takes room for one more thing, if there is none. Then the next `insert` takes no memory, and no `remove` of it.
    #[inline]
    pub(crate) fn try_room(&mut self) -> Result<(), TryReserveError> {
        if self.free.is_empty() && self.places.len() == self.places.capacity() {
            return self.try_grow();
        }
        Ok(())
    }

    #[cold]
    fn try_grow(&mut self) -> Result<(), TryReserveError> {
        let more = self.more();
        self.free.try_reserve_exact(self.places.len() + more)?;
        self.places.try_reserve_exact(more)
    }

    /// Takes out what is at the place.
    #[inline]
    pub(crate) fn remove(&mut self, at: u32) -> T {
        let thing = self.places[at as usize].take().expect("the place is taken");
        self.free.push(at);
        thing
    }

    pub(crate) fn len(&self) -> usize {
        self.places.len() - self.free.len()
    }

    /// What is at the place, if anything is.
    #[inline]
    pub(crate) fn get(&self, at: u32) -> Option<&T> {
        self.places.get(at as usize)?.as_ref()
    }

    /// All of them, each with its place.
    pub(crate) fn iter(&self) -> impl Iterator<Item = (u32, &T)> {
        self.places.iter().enumerate().filter_map(|(at, thing)| Some((at as u32, thing.as_ref()?)))
    }

    pub(crate) fn iter_mut(&mut self) -> impl Iterator<Item = (u32, &mut T)> {
        self.places.iter_mut().enumerate().filter_map(|(at, thing)| Some((at as u32, thing.as_mut()?)))
    }

    pub(crate) fn into_iter(self) -> impl Iterator<Item = (u32, T)> {
        self.places.into_iter().enumerate().filter_map(|(at, thing)| Some((at as u32, thing?)))
    }
}

impl<T> Index<u32> for Slab<T> {
    type Output = T;

    #[inline]
    fn index(&self, at: u32) -> &T {
        self.places[at as usize].as_ref().expect("the place is taken")
    }
}

impl<T> IndexMut<u32> for Slab<T> {
    #[inline]
    fn index_mut(&mut self, at: u32) -> &mut T {
        self.places[at as usize].as_mut().expect("the place is taken")
    }
}
