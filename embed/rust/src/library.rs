//! The library's cache of a shard, with its window and the moments of its calls.
use crate::life::Life;
use crate::reads::times::Latest;
use crate::sys::Looked;
use crate::table::NEVER;
use crate::window::{Seen, Share, Window};
use crate::{Fault, Found, Numbers, OpenError, Setup, Token, Tokens};
use std::sync::Arc;

// So many hits are told by one call of the library.
const TOLD_TOGETHER: usize = 8;

/// The library's cache with its window, and the latest moment of a call.
pub(crate) struct Library {
    tokens: Tokens,
    seen: Seen,
    latest: Arc<Latest>,
    window: Window,
    // How long after its moment a value that is stored without a life is sure to be found, and not due.
    sure_for: u64,
    // Whether a value without a life expires or gets due.
    has_durations: bool,
}

impl Library {
    /// Opens a shard of this setup, which is within its ranges. Its window follows the stream if it has a share in an adviser's advice.
    pub(crate) fn open(setup: &Setup, share: Option<Share>) -> Result<Self, OpenError> {
        let seen = Seen::of(share.as_ref());
        let window = Window::of(setup, share);
        let tokens = Tokens::of(&setup.with_window(window.holds()))?;
        let [after_write, after_access, refresh] = setup.milliseconds();
        let shortest = [after_write, refresh].into_iter().filter(|&duration| duration != 0).min();
        // The library has to hear of each use at once if `after_access` is set: a hit it hears of late would keep nothing from expiring.
        let sure_for = if after_access == 0 { shortest.unwrap_or(u64::MAX) } else { 0 };
        let has_durations = shortest.is_some() || after_access != 0;
        Ok(Library { tokens, seen, latest: Arc::default(), window, sure_for, has_durations })
    }

    /// Whether entries expire by the time since their last use. Then no hit is ever sure.
    pub(crate) fn has_after_access(&self) -> bool {
        self.sure_for == 0
    }

    /// The latest moment, which hits without the lock read.
    pub(crate) fn latest(&self) -> &Arc<Latest> {
        &self.latest
    }

    /// The calls of the library.
    #[inline(always)]
    pub(crate) fn tokens(&mut self) -> &mut Tokens {
        &mut self.tokens
    }

    /// How many entries the window may hold.
    pub(crate) fn window(&self) -> u32 {
        self.window.holds()
    }

    /// The token that a look-up would hit, with nothing used.
    pub(crate) fn peek(&mut self, number: u64, now: u64) -> Option<Token> {
        self.tokens.peek(number, now.max(self.latest.get()))
    }

    #[inline(always)]
    pub(crate) fn look(&mut self, number: u64, now: u64) -> Result<Found, Fault> {
        self.looked_up(number, now, Tokens::look)
    }

    #[inline(always)]
    pub(crate) fn seek(&mut self, number: u64, now: u64) -> Result<Found, Fault> {
        self.looked_up(number, now, Tokens::seek)
    }

    // A look-up of the key. The adviser sees it, unless it is refused.
    #[inline(always)]
    fn looked_up(
        &mut self,
        number: u64,
        now: u64,
        call: impl FnOnce(&mut Tokens, u64, u64) -> Result<Found, Fault>,
    ) -> Result<Found, Fault> {
        let found = self.made(now, |tokens, now| call(tokens, number, now))?;
        self.seen.add(number);
        Ok(found)
    }

    /// Makes a look-up, a put or a landing, before which the window may move.
    ///
    /// It moves at the latest moment of the calls before, so that a call that is refused doesn't change that. What left by the call
    /// before was moved out by then.
    #[inline(always)]
    pub(crate) fn made<T>(
        &mut self,
        now: u64,
        call: impl FnOnce(&mut Tokens, u64) -> Result<T, Fault>,
    ) -> Result<T, Fault> {
        if self.window.is_to_move() {
            self.window.follow(&mut self.tokens, self.latest.get());
        }
        self.made_as_it_is(now, call)
    }

    /// Makes a call at the moment, or at the latest one if that is later. A refused call doesn't change the latest moment.
    #[inline(always)]
    pub(crate) fn made_as_it_is<T>(
        &mut self,
        now: u64,
        call: impl FnOnce(&mut Tokens, u64) -> Result<T, Fault>,
    ) -> Result<T, Fault> {
        let now = now.max(self.latest.get());
        let made = call(&mut self.tokens, now)?;
        self.latest.pass(now);
        Ok(made)
    }

    /// Until when a value that the latest call has stored is sure to be found, and not due; NEVER if it always is.
    #[inline]
    pub(crate) fn until(&self, life: Life) -> u64 {
        if !self.has_durations && life == Life::NONE {
            return NEVER;
        }
        self.latest.get().saturating_add(life.within(self.sure_for)).min(NEVER - 1)
    }

    /// Tells the library of hits of these numbers, at the latest moment: each is there. Returns how many look-ups it has made of them; it
    /// hears no more of them once it refuses one.
    pub(crate) fn tell(&mut self, mut numbers: impl Iterator<Item = u64>) -> u64 {
        let (now, mut told) = (self.latest.get(), 0);
        loop {
            let mut looks = [Looked::default(); TOLD_TOGETHER];
            let count =
                looks.iter_mut().zip(&mut numbers).map(|(look, key)| *look = Looked { key, now, ..*look }).count();
            let made = self.tokens.look_many(&mut looks[..count]);
            looks[..made].iter().for_each(|look| self.seen.add(look.key));
            told += made as u64;
            if made < TOLD_TOGETHER {
                return told;
            }
        }
    }

    /// The keys that the adviser was shown.
    #[cfg(test)]
    pub(crate) fn shown(&mut self) -> Vec<u64> {
        self.seen.shown()
    }

    pub(crate) fn numbers(&mut self) -> Numbers {
        let (latest, numbers) = (self.latest.get(), self.tokens.numbers());
        Numbers { latest: latest.max(numbers.latest), ..numbers }
    }
}
