//! Two threads of a test that run one at a time, in every order.
//!
//! A thread may lose its turn before it begins a call, takes a lock, or uses what others write without one. What it does up to the
//! next such place can't be told apart from one step, since others see it only by those. `every_order` runs the threads again and
//! again, and chooses otherwise each time. Of orders that differ only in steps that use different things, it runs one.
use std::cell::RefCell;
use std::collections::HashSet;
use std::ops::{Deref, DerefMut};
use std::sync::{Arc, Condvar, Mutex, MutexGuard, PoisonError};

thread_local! {
    static MINE: RefCell<Option<(Arc<Turns>, usize)>> = const { RefCell::new(None) };
}

// What a step uses: a thing by its address, or 0 for one that comes before or after all others. A lock that it waits for has to be free.
#[derive(Clone, Copy, Default)]
struct Step {
    of: usize,
    waits: bool,
}

#[derive(Default)]
struct Turns {
    now: Mutex<Now>,
    bell: Condvar,
}

#[derive(Default)]
struct Now {
    turn: usize,
    // The next step of each thread, and who has ended.
    next: [Step; 2],
    is_over: [bool; 2],
    second_has_begun: bool,
    held: HashSet<usize>,
    // Whether the second of two choices was made at each place, and how many places there were so far.
    choices: Vec<bool>,
    at: usize,
    // How often the second one may still be made.
    left: usize,
    // A thread whose next step was tried here before: to take it now makes no difference.
    asleep: Option<usize>,
    // Nothing more is chosen: the run is like an earlier one.
    is_like_another: bool,
}

impl Now {
    fn may_go_on(&self, thread: usize) -> bool {
        let Step { of, waits } = self.next[thread];
        !(self.is_over[thread] || waits && self.held.contains(&of))
    }

    // Which thread makes the next step.
    fn choose(&mut self, own: usize) -> usize {
        let able: Vec<_> = [own, 1 - own].into_iter().filter(|&thread| self.may_go_on(thread)).collect();
        let &first = able.first().expect("nobody gives the lock back");
        let awake: Vec<_> = able.into_iter().filter(|&thread| self.asleep != Some(thread)).collect();
        match awake[..] {
            _ if self.is_like_another => first,
            [] => {
                self.is_like_another = true;
                first
            }
            [one, other] if self.left > 0 => {
                let at = self.at;
                self.at += 1;
                if at == self.choices.len() {
                    self.choices.push(false);
                }
                if !self.choices[at] {
                    return one;
                }
                self.left -= 1;
                self.asleep = Some(one);
                other
            }
            [one, ..] => one,
        }
    }

    // The thread makes its step now.
    fn step(&mut self, own: usize) {
        let (step, other) = (self.next[own], self.next[1 - own]);
        if step.of == other.of || step.of == 0 || other.of == 0 {
            self.asleep = None;
        }
    }
}

impl Turns {
    fn now(&self) -> MutexGuard<'_, Now> {
        self.now.lock().unwrap_or_else(PoisonError::into_inner)
    }

    fn place(&self, own: usize, next: Step) {
        let mut now = self.now();
        now.next[own] = next;
        // The second thread's first step was chosen by the first one.
        let is_chosen = own == 1 && !now.second_has_begun;
        now.second_has_begun |= is_chosen;
        if !is_chosen && now.choose(own) != own {
            now.turn = 1 - own;
            self.bell.notify_all();
            now = self.bell.wait_while(now, |now| now.turn != own).unwrap_or_else(PoisonError::into_inner);
        }
        now.step(own);
    }

    fn begin(&self, own: usize) {
        drop(self.bell.wait_while(self.now(), |now| now.turn != own).unwrap_or_else(PoisonError::into_inner));
    }

    fn end(&self, own: usize) {
        let mut now = self.now();
        now.is_over[own] = true;
        now.is_like_another |= now.asleep == Some(1 - own) && !now.is_over[1 - own];
        now.turn = 1 - own;
        self.bell.notify_all();
    }
}

// Ends the thread's turns, also if it panics.
struct Ends(Arc<Turns>, usize);

impl Drop for Ends {
    fn drop(&mut self) {
        MINE.set(None);
        self.0.end(self.1);
    }
}

fn mine() -> Option<(Arc<Turns>, usize)> {
    MINE.try_with(|mine| mine.borrow().clone()).ok().flatten()
}

/// A call begins.
pub(crate) fn begin_call() {
    uses(0);
}

/// A place at which another thread of such a test may go on, before a thing is used.
pub(crate) fn uses(of: usize) {
    if let Some((turns, own)) = mine() {
        turns.place(own, Step { of, waits: false });
    }
}

/// The same before a lock is taken, which is free then.
pub(crate) fn takes(of: usize) {
    if let Some((turns, own)) = mine() {
        turns.place(own, Step { of, waits: true });
    }
}

/// A thing is this thread's from now on: another thread that takes it waits.
pub(crate) fn holds(of: usize) {
    if let Some((turns, _)) = mine() {
        turns.now().held.insert(of);
    }
}

/// It is this thread's no longer.
pub(crate) fn gives(of: usize) {
    if let Some((turns, _)) = mine() {
        turns.now().held.remove(&of);
    }
}

/// A lock that was taken. Others are told when it is given back.
pub(crate) struct Taken<'a, T> {
    guard: MutexGuard<'a, T>,
    of: usize,
}

impl<'a, T> Taken<'a, T> {
    pub(crate) fn of(guard: MutexGuard<'a, T>, of: usize) -> Self {
        holds(of);
        Taken { guard, of }
    }
}

impl<T> Drop for Taken<'_, T> {
    fn drop(&mut self) {
        gives(self.of);
    }
}

impl<T> Deref for Taken<'_, T> {
    type Target = T;

    fn deref(&self) -> &T {
        &self.guard
    }
}

impl<T> DerefMut for Taken<'_, T> {
    fn deref_mut(&mut self) -> &mut T {
        &mut self.guard
    }
}

/// Runs both threads in every order, each time on something new, which is checked then. In a run the turn is lost at so many places
/// at most. Returns how many orders were checked.
pub(crate) fn every_order<T: Sync, A: Send>(
    most: usize,
    new: impl Fn() -> T,
    threads: [&(dyn Fn(&T) -> A + Sync); 2],
    check: impl Fn(T, [A; 2]),
) -> u64 {
    let (mut choices, mut orders) = (Vec::new(), 0);
    loop {
        let thing = new();
        let turns =
            Arc::new(Turns { now: Mutex::new(Now { choices, left: most, ..Now::default() }), bell: Condvar::new() });
        let answers = std::thread::scope(|scope| {
            let running = [0, 1].map(|own| {
                let (turns, thing, thread) = (turns.clone(), &thing, threads[own]);
                scope.spawn(move || {
                    turns.begin(own);
                    MINE.set(Some((turns.clone(), own)));
                    let _ends = Ends(turns, own);
                    thread(thing)
                })
            });
            running.map(|thread| thread.join().unwrap_or_else(|panic| std::panic::resume_unwind(panic)))
        });
        let mut now = turns.now();
        if !now.is_like_another {
            check(thing, answers);
            orders += 1;
        }
        choices = std::mem::take(&mut now.choices);
        choices.truncate(now.at);
        // The last place at which the second choice wasn't made yet.
        while choices.last() == Some(&true) {
            choices.pop();
        }
        match choices.last_mut() {
            Some(last) => *last = true,
            None => return orders,
        }
    }
}
