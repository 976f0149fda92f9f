//! Calls of tasks that are dropped: another task loads in their place, nobody waits for ever, and nothing is kept for good.
mod common;
#[path = "common/tasks.rs"]
mod tasks;
#[path = "common/whole.rs"]
mod whole;
use common::within_a_minute;
use rookdresser::future;
use std::future::poll_fn;
use std::sync::atomic::{AtomicU64, Ordering::SeqCst};
use std::sync::Arc;
use std::task::Poll;
use std::time::Duration;
use tasks::{yields, Gate, Task, Wakes};
use whole::{holds_exactly, Down, SETUP};

type Cache = future::Loading<u64, u64, Down>;

#[test]
fn a_load_whose_task_is_dropped_is_made_by_one_of_those_who_wait() {
    let cache = Cache::open(&SETUP).unwrap();
    let gate = Arc::new(Gate::default());
    let mut tasks = [1, 2, 3].map(|value| {
        let gate = gate.clone();
        Some(Task::of(cache.get_with(&1, async move {
            gate.is_open().await;
            value
        })))
    });
    let polled = |task: &mut Option<Task<_>>| task.as_mut().unwrap().ready();
    assert_eq!(tasks.each_mut().map(polled), [None, None, None]);
    tasks[0] = None;
    // All who wait are woken. The first that is polled loads, and the other one waits for it.
    assert_eq!([1, 2].map(|at: usize| tasks[at].as_ref().unwrap().wakes()), [1, 1]);
    assert_eq!([2, 1].map(|at: usize| polled(&mut tasks[at])), [None, None]);
    gate.open();
    assert_eq!(polled(&mut tasks[1]), None);
    assert_eq!([2, 1].map(|at: usize| polled(&mut tasks[at])), [Some(Ok(Arc::new(3))), Some(Ok(Arc::new(3)))]);
    assert_eq!((cache.stats().failed, cache.stats().loads, cache.stats().joins), (1, 1, 3));
    holds_exactly(&cache);
}

#[test]
fn a_call_may_be_dropped_at_each_await_of_its_loader() {
    for polls in 0..4 {
        let cache = Cache::open(&SETUP).unwrap();
        let of = |value| {
            cache.get_with(&1, async move {
                yields(3).await;
                value
            })
        };
        let mut leads = Task::of(of(7));
        (0..polls).for_each(|_| assert_eq!(leads.ready(), None));
        let mut joins = Task::of(of(8));
        assert_eq!(joins.ready(), None);
        drop(leads);
        // Whoever was polled first had the load. The other one makes its own, by three further polls if it had made the first.
        let had_to_wait = u64::from(polls > 0);
        assert_eq!((cache.stats().failed, joins.wakes()), (had_to_wait, 1));
        (0..2 + had_to_wait).for_each(|_| assert_eq!(joins.ready(), None));
        assert_eq!((joins.ready(), cache.stats().loads), (Some(Ok(Arc::new(8))), 1));
        holds_exactly(&cache);
    }
}

// What a test expects of three tasks that ask for one key. A loader is ready when it is polled the second time.
#[derive(Default)]
struct Expected {
    leader: Option<usize>,
    waits: [bool; 3],
    is_woken: [bool; 3],
    value: Option<u64>,
}

impl Expected {
    fn wake_all(&mut self) {
        (0..3).for_each(|other| self.is_woken[other] |= self.waits[other]);
        self.waits = [false; 3];
    }

    // What the task's poll returns.
    fn poll(&mut self, task: usize) -> Option<u64> {
        self.is_woken[task] = false;
        if self.leader == Some(task) {
            (self.leader, self.value) = (None, Some(task as u64));
            self.wake_all();
        }
        if self.value.is_some() {
            return self.value;
        }
        match self.leader {
            None => (self.leader, self.is_woken[task]) = (Some(task), true),
            Some(_) => self.waits[task] = true,
        }
        None
    }

    fn drop(&mut self, task: usize) {
        self.waits[task] = false;
        if self.leader == Some(task) {
            self.leader = None;
            self.wake_all();
        }
    }
}

// Polls or drops tasks in one order, and then polls those that are left, as often as they are woken.
fn in_order(cache: &Cache, key: u64, order: impl Iterator<Item = usize>) {
    let of = |task: u64| {
        Task::of(cache.get_with(&key, async move {
            yields(1).await;
            task
        }))
    };
    let (mut tasks, mut expected) = ([0, 1, 2].map(|task| Some(of(task))), Expected::default());
    let mut step = |at: usize, is_polled: bool| {
        let Some(task) = &mut tasks[at] else { return };
        if is_polled {
            let got = task.ready().map(|got| *got.unwrap());
            assert_eq!(got, expected.poll(at));
            if got.is_none() {
                assert_eq!(task.wakes() > 0, expected.is_woken[at]);
                return;
            }
        } else {
            expected.drop(at);
        }
        tasks[at] = None;
        for (task, is_woken) in tasks.iter().zip(expected.is_woken) {
            assert!(task.as_ref().is_none_or(|task| !is_woken || task.wakes() > 0));
        }
    };
    for what in order {
        step(what % 3, what < 3);
    }
    // At most twice each, and once more if another one had the load.
    for at in (0..3).cycle().take(9) {
        step(at, true);
    }
    assert!(tasks.iter().all(Option::is_none));
}

#[test]
fn tasks_that_are_polled_and_dropped_in_any_order_share_one_load_and_never_hang() {
    within_a_minute(|| {
        let cache = Cache::open(&SETUP).unwrap();
        for order in 0..6_u64.pow(6) {
            in_order(&cache, order, (0..6).map(|at| (order / 6_u64.pow(at) % 6) as usize));
        }
        holds_exactly(&cache);
        assert_eq!(cache.stats().loads + cache.stats().failed, cache.stats().misses - cache.stats().joins);
    });
}

#[test]
fn a_refresh_that_is_dropped_leaves_the_old_value_and_another_one_refreshes() {
    let cache = Cache::open(&SETUP.refresh(Duration::from_millis(10))).unwrap();
    cache.store_at(&1, 7, 1, 0).unwrap();
    let mut renews = Task::of(cache.get_at(&1, 10, async {
        yields(1).await;
        Ok((8, 1))
    }));
    assert_eq!(renews.ready(), None);
    drop(renews);
    assert_eq!(cache.look_at(&1, 10), Ok(Some(Arc::new(7))));
    assert_eq!(Task::of(cache.get_at(&1, 10, async { Ok((9, 1)) })).ready(), Some(Ok(Arc::new(9))));
    assert_eq!((cache.stats().failed, cache.stats().loads), (1, 1));
    holds_exactly(&cache);
}

#[test]
fn a_wait_that_is_dropped_keeps_no_waker() {
    let (cache, gate) = (Cache::open(&SETUP).unwrap(), Gate::default());
    let mut leads = Task::of(cache.get_with(&1, async {
        gate.is_open().await;
        7
    }));
    assert_eq!(leads.ready(), None);
    let wakes = Arc::new(Wakes::default());
    let mut joins = [8, 9].map(|value| Some(Task::of(cache.get_with(&1, async move { value }))));
    for joins in joins.iter_mut().flatten() {
        assert!(joins.poll_by(&wakes.clone().into()).is_pending());
    }
    assert_eq!(Arc::strong_count(&wakes), 3);
    joins[0] = None;
    assert_eq!(Arc::strong_count(&wakes), 2);
    gate.open();
    assert_eq!((leads.ready(), wakes.count(), Arc::strong_count(&wakes)), (Some(Ok(Arc::new(7))), 1, 1));
    // So may one that was woken.
    joins[1] = None;
    holds_exactly(&cache);
}

// Calls something as it is dropped.
struct Calls<F: FnMut()>(F);

impl<F: FnMut()> Drop for Calls<F> {
    fn drop(&mut self) {
        (self.0)();
    }
}

#[test]
fn what_a_loader_owns_is_dropped_once_its_load_is_over() {
    within_a_minute(|| {
        // The call is dropped after its first poll, or ends by the second one.
        for (polls, there) in [(1, 5), (2, 7)] {
            let (cache, drops) = (Cache::open(&SETUP).unwrap(), AtomicU64::new(0));
            let owned = Calls(|| {
                // It would wait for itself if the load were open.
                assert_eq!(cache.blocking().get_with(&1, || 5), Ok(Arc::new(there)));
                drops.fetch_add(1, SeqCst);
            });
            let mut left = 1;
            let mut task = Task::of(cache.get(
                &1,
                poll_fn(move |_| {
                    let _owned = &owned;
                    if left == 0 {
                        return Poll::Ready(Ok((7, 1)));
                    }
                    left -= 1;
                    Poll::Pending
                }),
            ));
            (0..polls).for_each(|_| drop(task.ready()));
            drop(task);
            assert_eq!((drops.load(SeqCst), cache.look(&1)), (1, Ok(Some(Arc::new(there)))));
            holds_exactly(&cache);
        }
    });
}
