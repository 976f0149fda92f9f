//! A load under way, and who waits for it: threads, and tasks by their wakers.
use crate::loads::waits::{outside, Waiting, WaitsForItself};
use crate::lock::locked;
use crate::panics::Panics;
use crate::table::slab::Slab;
use std::future::Future;
use std::pin::Pin;
use std::sync::atomic::{AtomicBool, Ordering};
use std::sync::{Arc, Condvar, Mutex, PoisonError};
use std::task::{Context, Poll, Waker};

/// What became of a load.
pub(crate) enum Outcome<V, E> {
    Value(Arc<V>),
    Failed(Arc<E>),
    /// Its loader panicked, or the task that made it was dropped, so those who joined ask again.
    Again,
}

impl<V, E> Clone for Outcome<V, E> {
    fn clone(&self) -> Self {
        match self {
            Outcome::Value(value) => Outcome::Value(value.clone()),
            Outcome::Failed(error) => Outcome::Failed(error.clone()),
            Outcome::Again => Outcome::Again,
        }
    }
}

/// A load that one caller makes and others wait for.
pub(crate) struct Flight<V, E> {
    seats: Mutex<Seats<V, E>>,
    bell: Condvar,
    load: u64,
    // Set before those who wait are told.
    is_over: Arc<AtomicBool>,
}

struct Seats<V, E> {
    told: Option<Outcome<V, E>>,
    // The tasks that wait, until they are told.
    wakers: Slab<Waker>,
    // Whether a thread has waited.
    has_threads: bool,
}

impl<V, E> Flight<V, E> {
    /// The load of this number.
    pub(crate) fn of(load: u64) -> Self {
        let seats = Mutex::new(Seats { told: None, wakers: Slab::of(0), has_threads: false });
        Flight { seats, bell: Condvar::new(), load, is_over: Arc::new(AtomicBool::new(false)) }
    }

    /// Tells all who wait. Wakers are code of the caller's, so no lock is held then, and what one polls is no part of a load that this
    /// thread makes.
    pub(crate) fn tell(&self, outcome: Outcome<V, E>, panics: &mut Panics) {
        self.is_over.store(true, Ordering::SeqCst);
        let mut seats = locked(&self.seats);
        seats.told = Some(outcome);
        let (wakers, has_threads) = (std::mem::replace(&mut seats.wakers, Slab::of(0)), seats.has_threads);
        drop(seats);
        if has_threads {
            self.bell.notify_all();
        }
        for (_, waker) in wakers.into_iter() {
            panics.of(|| outside(|| waker.wake()));
        }
    }

    /// Waits in this thread.
    pub(crate) fn wait(&self) -> Result<Outcome<V, E>, WaitsForItself> {
        let mut waiting = Waiting::default();
        waiting.go_on(self.load, &self.is_over)?;
        let mut seats = locked(&self.seats);
        seats.has_threads = true;
        loop {
            if let Some(outcome) = &seats.told {
                return Ok(outcome.clone());
            }
            seats = self.bell.wait(seats).unwrap_or_else(PoisonError::into_inner);
        }
    }

    // What was told. If nothing was, the seat has a waker for this task from now on. Wakers are cloned and dropped with no lock held.
    fn told(&self, seat: &mut Option<u32>, waker: &Waker) -> Option<Outcome<V, E>> {
        let seats = locked(&self.seats);
        if seats.told.is_some() || seat.is_some_and(|at| seats.wakers[at].will_wake(waker)) {
            return seats.told.clone();
        }
        drop(seats);
        let own = waker.clone();
        let mut seats = locked(&self.seats);
        let told = seats.told.clone();
        let useless = match *seat {
            _ if told.is_some() => Some(own),
            Some(at) => Some(std::mem::replace(&mut seats.wakers[at], own)),
            None => {
                *seat = Some(seats.wakers.insert(own));
                None
            }
        };
        drop(seats);
        let mut panics = Panics::default();
        panics.of(|| drop(useless));
        panics.checked(told)
    }

    // Gives a seat back, with its waker if that still waits.
    fn left(&self, seat: u32) -> Option<Waker> {
        let mut seats = locked(&self.seats);
        seats.told.is_none().then(|| seats.wakers.remove(seat))
    }
}

/// A task's wait for a load. It may be dropped at any time.
pub(crate) struct Joined<V, E> {
    flight: Option<Arc<Flight<V, E>>>,
    seat: Option<u32>,
    waiting: Waiting,
}

impl<V, E> Joined<V, E> {
    pub(crate) fn of(flight: Arc<Flight<V, E>>) -> Self {
        Joined { flight: Some(flight), seat: None, waiting: Waiting::default() }
    }
}

impl<V, E> Future for Joined<V, E> {
    type Output = Result<Outcome<V, E>, WaitsForItself>;

    fn poll(mut self: Pin<&mut Self>, context: &mut Context<'_>) -> Poll<Self::Output> {
        let Joined { flight, seat, waiting } = &mut *self;
        let flight = flight.as_ref().expect("it is there until the wait is dropped");
        if let Some(outcome) = flight.told(seat, context.waker()) {
            return Poll::Ready(Ok(outcome));
        }
        match waiting.go_on(flight.load, &flight.is_over) {
            Ok(()) => Poll::Pending,
            Err(fault) => Poll::Ready(Err(fault)),
        }
    }
}

impl<V, E> Drop for Joined<V, E> {
    fn drop(&mut self) {
        let Some(flight) = self.flight.take() else { return };
        let mut panics = Panics::default();
        let waker = self.seat.take().and_then(|seat| flight.left(seat));
        panics.of(|| drop(waker));
        // It may have the last share of what was told.
        panics.of(|| drop(flight));
        panics.pass_on();
    }
}
