//! Loads of tasks that wait for each other in a circle.
#[path = "common/block_on.rs"]
mod block_on;
mod common;
#[path = "common/tasks.rs"]
mod tasks;
#[path = "common/whole.rs"]
mod whole;
use block_on::block_on;
use common::within_a_minute;
use rookdresser::{future, GetError, Setup};
use std::cell::RefCell;
use std::future::{poll_fn, Future};
use std::pin::{pin, Pin};
use std::sync::{Arc, Barrier, Mutex};
use std::task::{Context, Poll, Wake};
use tasks::{yields, Gate, Task};
use whole::{holds_exactly, Down, SETUP};

type Cache = future::Loading<u64, u64, Down>;
type Got = Result<Arc<u64>, GetError<Down>>;

const CIRCLE: Got = Err(GetError::WaitsForItself);

// Loads its key, and then asks for the next one. The value is 1 if that closed a circle, or else one more than the next one's.
async fn asks(cache: &Cache, own: u64, next: u64) -> Got {
    let load = async {
        yields(1).await;
        match cache.get_with(&next, async { 10 }).await {
            Ok(value) => *value + 1,
            Err(error) => {
                assert_eq!(error, GetError::WaitsForItself);
                1
            }
        }
    };
    cache.get_with(&own, load).await
}

#[test]
fn a_loader_that_asks_for_its_own_key_is_told() {
    let cache = Cache::open(&SETUP).unwrap();
    let mut task = Task::of(asks(&cache, 1, 1));
    assert_eq!((task.ready(), task.ready()), (None, Some(Ok(Arc::new(1)))));
    holds_exactly(&cache);
}

#[test]
fn a_load_within_a_load_that_asks_for_the_outer_one_s_key_is_told() {
    let cache = Cache::open(&SETUP).unwrap();
    let middle = async { cache.get_with(&2, async { *asks(&cache, 3, 1).await.unwrap() + 1 }).await };
    let mut task = Task::of(cache.get_with(&1, async { *middle.await.unwrap() + 1 }));
    assert_eq!((task.ready(), task.ready()), (None, Some(Ok(Arc::new(3)))));
    holds_exactly(&cache);
}

#[test]
fn the_last_of_many_loads_that_close_a_circle_is_told() {
    for of in [2, 3, 50] {
        let cache = Cache::open(&Setup::of(100)).unwrap();
        let mut all: Vec<_> = (0..of).map(|own| Task::of(asks(&cache, own, (own + 1) % of))).collect();
        assert!(all.iter_mut().all(|task| task.ready().is_none()));
        // Each asks for the next one's now, and the last one closes the circle. So its value is 1, the one before has 2, and so on.
        assert!(all[..of as usize - 1].iter_mut().all(|task| task.ready().is_none()));
        for own in (0..of).rev() {
            assert_eq!(all[own as usize].ready(), Some(Ok(Arc::new(of - own))));
        }
        holds_exactly(&cache);
    }
}

// Waits for both.
async fn both(one: impl Future<Output = Got>, other: impl Future<Output = Got>) -> [Got; 2] {
    let (mut one, mut other, mut got) = (pin!(one), pin!(other), [None, None]);
    poll_fn(|context| {
        let parts: [Pin<&mut dyn Future<Output = Got>>; 2] = [one.as_mut(), other.as_mut()];
        for (got, part) in got.iter_mut().zip(parts) {
            if got.is_none() {
                *got = ready(part.poll(context));
            }
        }
        if got.iter().all(Option::is_some) {
            Poll::Ready(())
        } else {
            Poll::Pending
        }
    })
    .await;
    got.map(|got| got.expect("both are ready"))
}

fn ready(polled: Poll<Got>) -> Option<Got> {
    match polled {
        Poll::Ready(got) => Some(got),
        Poll::Pending => None,
    }
}

#[test]
fn a_circle_by_one_of_two_loads_that_a_loader_waits_for_is_told() {
    let (cache, gate) = (Cache::open(&SETUP).unwrap(), Gate::default());
    let mut other = Task::of(cache.get_with(&2, async {
        gate.is_open().await;
        20
    }));
    let mut third = Task::of(asks(&cache, 3, 1));
    assert_eq!((other.ready(), third.ready()), (None, None));
    let mut first = Task::of(cache.get_with(&1, async {
        let got = both(cache.get_with(&2, async { 0 }), cache.get_with(&3, async { 0 })).await;
        got.into_iter().map(|got| *got.unwrap()).sum()
    }));
    assert_eq!(first.ready(), None);
    // The third asks for the first one's key, which waits for the second and the third.
    assert_eq!((third.ready(), first.ready()), (Some(Ok(Arc::new(1))), None));
    gate.open();
    assert_eq!((other.ready(), first.ready()), (Some(Ok(Arc::new(20))), Some(Ok(Arc::new(21)))));
    holds_exactly(&cache);
}

#[test]
fn loads_that_wait_for_each_other_in_no_circle_are_not_told() {
    let cache = Cache::open(&SETUP).unwrap();
    // 1 waits for 2 and 3, and so does 4. 2 and 3 wait for 5.
    async fn waits(cache: &Cache, own: u64, [one, other]: [u64; 2]) -> Got {
        let load = async {
            yields(1).await;
            let got = both(cache.get_with(&one, async { 0 }), cache.get_with(&other, async { 0 })).await;
            got.into_iter().map(|got| *got.unwrap()).sum()
        };
        cache.get_with(&own, load).await
    }
    let mut fifth = Task::of(cache.get_with(&5, async {
        yields(2).await;
        1
    }));
    let all = [(1, [2, 3]), (4, [2, 3]), (2, [5, 5]), (3, [5, 5])];
    let mut all = all.map(|(own, next)| Task::of(waits(&cache, own, next)));
    for _ in 0..2 {
        assert_eq!(fifth.ready(), None);
        assert!(all.iter_mut().all(|task| task.ready().is_none()));
    }
    assert_eq!(fifth.ready(), Some(Ok(Arc::new(1))));
    assert_eq!([2, 3].map(|at: usize| all[at].ready()), [Some(Ok(Arc::new(2))), Some(Ok(Arc::new(2)))]);
    assert_eq!([0, 1].map(|at: usize| all[at].ready()), [Some(Ok(Arc::new(4))), Some(Ok(Arc::new(4)))]);
    holds_exactly(&cache);
}

#[test]
fn a_wait_that_a_loader_has_given_up_closes_no_circle() {
    let cache = Cache::open(&SETUP).unwrap();
    let mut second = Task::of(asks(&cache, 2, 1));
    assert_eq!(second.ready(), None);
    let mut first = Task::of(cache.get_with(&1, async {
        // It waits for the second one for a while.
        let mut waits = Some(Box::pin(cache.get_with(&2, async { 0 })));
        let mut polls = 0;
        poll_fn(|context| {
            polls += 1;
            if polls == 2 {
                waits = None;
                return Poll::Ready(());
            }
            assert!(waits.as_mut().unwrap().as_mut().poll(context).is_pending());
            Poll::Pending
        })
        .await;
        yields(1).await;
        7
    }));
    assert_eq!((first.ready(), first.ready()), (None, None));
    // The second one waits for the first one now, which waits for it no longer.
    assert_eq!((second.ready(), first.ready(), second.ready()), (None, Some(Ok(Arc::new(7))), Some(Ok(Arc::new(8)))));
    holds_exactly(&cache);
}

#[test]
fn a_circle_that_closes_as_a_call_is_handed_to_another_loader_is_told() {
    let (cache, gate) = (Cache::open(&SETUP).unwrap(), Gate::default());
    let handed = RefCell::new(None);
    let mut first = Task::of(cache.get_with(&1, async {
        gate.is_open().await;
        let call: Pin<Box<dyn Future<Output = Got> + '_>> = handed.take().expect("it was handed over");
        *call.await.unwrap() + 1
    }));
    assert_eq!(first.ready(), None);
    // The second one's loader waits for the first one, which then waits for it.
    let mut second = Task::of(cache.get_with(&2, async {
        assert_eq!(cache.get_with(&1, async { 0 }).await, CIRCLE);
        5
    }));
    assert_eq!(second.ready(), None);
    handed.replace(Some(second.handed_over()));
    gate.open();
    assert_eq!(first.ready(), Some(Ok(Arc::new(6))));
    holds_exactly(&cache);
}

#[test]
fn a_thread_s_loader_and_a_task_s_that_wait_for_themselves_are_told() {
    within_a_minute(|| {
        let cache = Cache::open(&SETUP).unwrap();
        // The thread's loader runs a task to its end, which asks for the loader's key.
        let got = cache.blocking().get_with(&1, || {
            assert_eq!(block_on(cache.get_with(&1, async { 0 })), CIRCLE);
            1
        });
        assert_eq!(got, Ok(Arc::new(1)));
        // The task's loader blocks its thread for its own key.
        let got = block_on(cache.get_with(&2, async {
            yields(1).await;
            assert_eq!(cache.blocking().get_with(&2, || 0), CIRCLE);
            2
        }));
        assert_eq!(got, Ok(Arc::new(2)));
        holds_exactly(&cache);
    });
}

#[test]
fn a_thread_s_load_and_a_task_s_that_wait_for_each_other_are_told() {
    within_a_minute(|| {
        let (cache, gate) = (Cache::open(&SETUP).unwrap(), Barrier::new(2));
        let (task, thread) = std::thread::scope(|threads| {
            let task = threads.spawn(|| {
                block_on(cache.get_with(&1, async {
                    gate.wait();
                    u64::from(cache.get_with(&2, async { 0 }).await.is_ok())
                }))
            });
            let load = || {
                gate.wait();
                u64::from(cache.blocking().get_with(&1, || 0).is_ok())
            };
            let thread = cache.blocking().get_with(&2, load);
            (task.join().unwrap(), thread)
        });
        // One of both closed the circle, and the other one got its value.
        assert_eq!(*task.unwrap() + *thread.unwrap(), 1);
        holds_exactly(&cache);
    });
}

type TwoGets = Pin<Box<dyn Future<Output = [Got; 2]> + Send>>;

// Polls its task wherever it is woken.
struct Inline {
    task: Mutex<Option<TwoGets>>,
    got: Mutex<Option<[Got; 2]>>,
}

impl Wake for Inline {
    fn wake(self: Arc<Self>) {
        let Some(mut task) = self.task.lock().unwrap().take() else { return };
        match task.as_mut().poll(&mut Context::from_waker(&self.clone().into())) {
            Poll::Ready(got) => *self.got.lock().unwrap() = Some(got),
            Poll::Pending => *self.task.lock().unwrap() = Some(task),
        }
    }
}

#[test]
fn a_task_that_a_waker_polls_within_a_loader_is_no_part_of_that_load() {
    within_a_minute(|| {
        let cache = Cache::open(&SETUP).unwrap();
        let own = cache.clone();
        let asks = async move { [own.get_with(&1, async { 0 }).await, own.get_with(&9, async { 0 }).await] };
        let task = Arc::new(Inline { task: Mutex::new(Some(Box::pin(asks))), got: Mutex::new(None) });
        let got = cache.blocking().get_with(&9, || {
            // The task joins this load from another thread. As it ends, the waker polls the task in this one, within the loader of 9.
            let one = cache.blocking().get_with(&1, || {
                let first = task.clone();
                std::thread::spawn(|| first.wake()).join().unwrap();
                1
            });
            assert!(task.got.lock().unwrap().is_none());
            *one.unwrap() + 8
        });
        assert_eq!(got, Ok(Arc::new(9)));
        assert_eq!(task.got.lock().unwrap().take(), Some([Ok(Arc::new(1)), Ok(Arc::new(9))]));
        assert_eq!(cache.stats().joins, 2);
        holds_exactly(&cache);
    });
}

#[test]
fn a_circle_through_a_task_of_its_own_lasts_until_one_of_them_is_dropped() {
    let cache = Cache::open(&SETUP).unwrap();
    let gate = Gate::default();
    // The loader waits for a task that isn't polled by it.
    let mut first = Task::of(cache.get_with(&1, async {
        gate.is_open().await;
        0
    }));
    assert_eq!(first.ready(), None);
    let mut spawned = Task::of(async {
        let got = cache.get_with(&1, async { 5 }).await;
        gate.open();
        got
    });
    assert_eq!((spawned.ready(), first.ready(), spawned.ready()), (None, None, None));
    drop(first);
    assert_eq!(spawned.ready(), Some(Ok(Arc::new(5))));
    holds_exactly(&cache);
}
