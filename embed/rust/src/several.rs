//! Mostly nothing or one thing, and then nothing is allocated.

/// Some things in their order.
pub(crate) struct Several<T> {
    first: Option<T>,
    more: Vec<T>,
}

impl<T> Several<T> {
    pub(crate) const fn none() -> Several<T> {
        Several { first: None, more: Vec::new() }
    }

    #[inline]
    pub(crate) const fn of(one: T) -> Several<T> {
        Several { first: Some(one), more: Vec::new() }
    }

    #[inline]
    pub(crate) fn push(&mut self, one: T) {
        if self.first.is_none() {
            self.first = Some(one);
        } else {
            self.more.push(one);
        }
    }

    /// Adds others behind its own.
    pub(crate) fn take_in(&mut self, others: Several<T>) {
        others.for_each(|one| self.push(one));
    }

    #[inline]
    pub(crate) fn is_empty(&self) -> bool {
        self.first.is_none()
    }

    /// Makes the call with each of them.
    #[inline]
    pub(crate) fn for_each(self, mut call: impl FnMut(T)) {
        if let Some(first) = self.first {
            call(first);
        }
        if !self.more.is_empty() {
            self.more.into_iter().for_each(call);
        }
    }

    /// What the call makes of each of them.
    #[inline]
    pub(crate) fn map<U>(self, mut call: impl FnMut(T) -> U) -> Several<U> {
        let first = self.first.map(&mut call);
        let more = if self.more.is_empty() { Vec::new() } else { self.more.into_iter().map(call).collect() };
        Several { first, more }
    }

    pub(crate) fn iter(&self) -> impl Iterator<Item = &T> {
        self.first.iter().chain(&self.more)
    }

    pub(crate) fn into_vec(self) -> Vec<T> {
        let Some(first) = self.first else { return Vec::new() };
        let mut all = Vec::with_capacity(1 + self.more.len());
        all.push(first);
        all.extend(self.more);
        all
    }
}

impl<T> Default for Several<T> {
    fn default() -> Several<T> {
        Several::none()
    }
}

impl<T> Extend<T> for Several<T> {
    #[inline]
    fn extend<I: IntoIterator<Item = T>>(&mut self, more: I) {
        for one in more {
            self.push(one);
        }
    }
}

impl<T> FromIterator<T> for Several<T> {
    fn from_iter<I: IntoIterator<Item = T>>(all: I) -> Several<T> {
        let mut several = Several::none();
        several.extend(all);
        several
    }
}
