//! Tasks that ask for a key at the same time share one load.
#[path = "common/block_on.rs"]
mod block_on;
mod common;
#[path = "common/tasks.rs"]
mod tasks;
#[path = "common/whole.rs"]
mod whole;
use block_on::block_on;
use common::within_a_minute;
use rookdresser::{future, Cause, Fault, GetError, Loading, Setup};
use std::cell::Cell;
use std::sync::atomic::{AtomicU64, Ordering::SeqCst};
use std::sync::{Arc, Mutex};
use std::task::{Poll, Waker};
use std::time::Duration;
use tasks::{run, yields, Gate, Spawned, Task};
use whole::{holds_exactly, Down, SETUP};

type Cache = future::Loading<u64, u64, Down>;

#[test]
fn a_load_is_made_once_for_all_tasks_that_ask() {
    within_a_minute(|| {
        let (cache, made) = (Cache::open(&Setup::of(100)).unwrap(), AtomicU64::new(0));
        let asks = |key: u64| {
            let (cache, made) = (&cache, &made);
            async move {
                let load = async {
                    made.fetch_add(1, SeqCst);
                    // Until all others have joined.
                    while cache.stats().joins < 19 * (key + 1) {
                        yields(1).await;
                    }
                    key * 10
                };
                assert_eq!(*cache.get_with(&key, load).await.unwrap(), key * 10);
            }
        };
        for key in 0..50 {
            run(4, (0..20).map(|_| Box::pin(asks(key)) as Spawned).collect());
        }
        let stats = cache.stats();
        assert_eq!((made.load(SeqCst), stats.loads, stats.misses, stats.joins, stats.hits), (50, 50, 1000, 950, 0));
        holds_exactly(&cache);
    });
}

#[test]
fn a_hit_is_ready_at_once_and_its_loader_is_not_polled() {
    let cache = Cache::open(&SETUP).unwrap();
    cache.store(&1, 7, 1).unwrap();
    let never = async { unreachable!("it is there") };
    assert_eq!(Task::of(cache.get_with(&1, never)).ready(), Some(Ok(Arc::new(7))));
    assert_eq!((cache.stats().hits, cache.stats().misses), (1, 0));
}

#[test]
fn a_call_that_is_not_polled_does_nothing() {
    let cache = Cache::open(&SETUP).unwrap();
    drop(cache.get_with(&1, async { 7 }));
    assert_eq!((cache.stats().misses, cache.numbers().step, cache.kept()), (0, 0, (0, 0)));
}

#[test]
fn whoever_joins_is_woken_once_and_gets_the_value() {
    let (cache, gate) = (Cache::open(&SETUP).unwrap(), Gate::default());
    let mut leads = Task::of(cache.get_with(&1, async {
        gate.is_open().await;
        7
    }));
    let mut joins = Task::of(cache.get_with(&1, async { 8 }));
    assert_eq!((leads.ready(), joins.ready(), joins.ready()), (None, None, None));
    gate.open();
    assert_eq!((leads.wakes(), joins.wakes()), (1, 0));
    assert_eq!((leads.ready(), joins.wakes(), joins.ready()), (Some(Ok(Arc::new(7))), 1, Some(Ok(Arc::new(7)))));
    assert_eq!((cache.stats().loads, cache.stats().joins), (1, 1));
    holds_exactly(&cache);
}

#[test]
fn a_load_that_fails_fails_for_all_who_share_it() {
    let (cache, gate) = (Cache::open(&SETUP).unwrap(), Gate::default());
    let fails = async {
        gate.is_open().await;
        Err(Down)
    };
    let mut leads = Task::of(cache.try_get_with(&1, fails));
    let mut joins = Task::of(cache.get_with(&1, async { 8 }));
    assert_eq!((leads.ready(), joins.ready()), (None, None));
    gate.open();
    let failed = || Some(Err(GetError::Load(Arc::new(Down))));
    assert_eq!((leads.ready(), joins.ready()), (failed(), failed()));
    assert_eq!((cache.stats().failed, cache.look(&1)), (1, Ok(None)));
    holds_exactly(&cache);
}

#[test]
fn a_task_and_a_thread_share_a_load() {
    within_a_minute(|| {
        let cache = Cache::open(&SETUP).unwrap();
        let asks_of = |key: u64, joins: u64| {
            let cache = &cache;
            cache.get_with(&0, async move {
                while cache.stats().joins < joins {
                    yields(1).await;
                }
                key
            })
        };
        std::thread::scope(|threads| {
            // The task leads, and the thread joins.
            let task = threads.spawn(|| block_on(asks_of(7, 1)));
            while cache.stats().misses == 0 {
                std::thread::yield_now();
            }
            assert_eq!(cache.blocking().get_with(&0, || 8), Ok(Arc::new(7)));
            assert_eq!(task.join().unwrap(), Ok(Arc::new(7)));
            // The thread leads, and the task joins.
            drop(cache.drop_key(&0).unwrap());
            let thread = threads.spawn(|| {
                cache.blocking().get_with(&0, || {
                    while cache.stats().joins < 2 {
                        std::thread::yield_now();
                    }
                    9
                })
            });
            while cache.stats().misses < 3 {
                std::thread::yield_now();
            }
            assert_eq!(block_on(asks_of(10, 0)), Ok(Arc::new(9)));
            assert_eq!(thread.join().unwrap(), Ok(Arc::new(9)));
        });
        assert_eq!((cache.stats().loads, cache.stats().joins), (2, 2));
        holds_exactly(&cache);
    });
}

#[test]
fn a_value_that_is_stored_or_dropped_during_a_load_is_not_loaded_over() {
    let cache = Cache::open(&SETUP).unwrap();
    let loads = |gate: Arc<Gate>, value| {
        cache.get_with(&1, async move {
            gate.is_open().await;
            value
        })
    };
    // The key is stored, and then dropped, while the load is open. The load returns its own value all the same.
    let gate = Arc::new(Gate::default());
    let mut task = Task::of(loads(gate.clone(), 7));
    assert_eq!(task.ready(), None);
    cache.store(&1, 8, 1).unwrap();
    gate.open();
    assert_eq!((task.ready(), cache.look(&1)), (Some(Ok(Arc::new(7))), Ok(Some(Arc::new(8)))));
    drop(cache.drop_key(&1).unwrap());
    let gate = Arc::new(Gate::default());
    let mut task = Task::of(loads(gate.clone(), 9));
    assert_eq!(task.ready(), None);
    assert_eq!(cache.drop_key(&1), Ok(vec![]));
    // Who asks from now on shares a load of its own.
    assert_eq!(Task::of(cache.get_with(&1, async { 10 })).ready(), Some(Ok(Arc::new(10))));
    gate.open();
    assert_eq!((task.ready(), cache.look(&1)), (Some(Ok(Arc::new(9))), Ok(Some(Arc::new(10)))));
    assert_eq!(cache.stats().loose, 2);
    holds_exactly(&cache);
}

#[test]
fn a_due_entry_is_loaded_again_by_one_task_and_the_others_get_the_old_value() {
    let cache = Cache::open(&SETUP.refresh(Duration::from_millis(10))).unwrap();
    let gate = Gate::default();
    cache.store_at(&1, 7, 1, 0).unwrap();
    let ready = |now, value| Task::of(cache.get_at(&1, now, async move { value })).ready();
    assert_eq!(ready(9, Ok((8, 1))), Some(Ok(Arc::new(7))));
    let mut renews = Task::of(cache.get_at(&1, 10, async {
        gate.is_open().await;
        Ok((9, 1))
    }));
    assert_eq!((renews.ready(), ready(10, Ok((8, 1)))), (None, Some(Ok(Arc::new(7)))));
    gate.open();
    assert_eq!((renews.ready(), ready(10, Ok((8, 1)))), (Some(Ok(Arc::new(9))), Some(Ok(Arc::new(9)))));
    // The old value stays if the load fails.
    assert_eq!((ready(20, Err(Down)), ready(20, Ok((10, 1)))), (Some(Ok(Arc::new(9))), Some(Ok(Arc::new(10)))));
    assert_eq!((cache.stats().refreshes, cache.stats().failed), (3, 1));
    holds_exactly(&cache);
}

#[test]
fn the_age_of_a_loaded_value_counts_from_the_get() {
    let (cache, gate) = (Cache::open(&SETUP.after_write(Duration::from_millis(10))).unwrap(), Gate::default());
    let load = async {
        gate.is_open().await;
        Ok((7, 1))
    };
    let mut task = Task::of(cache.get_at(&1, 100, load));
    assert_eq!(task.ready(), None);
    gate.open();
    assert_eq!(task.ready(), Some(Ok(Arc::new(7))));
    assert_eq!((cache.look_at(&1, 109), cache.look_at(&1, 110)), (Ok(Some(Arc::new(7))), Ok(None)));
}

#[test]
fn the_last_handle_tells_the_listener_what_was_there() {
    let told = Arc::new(Mutex::new(vec![]));
    let tells = told.clone();
    let cache = Loading::<u64, u64, Down>::open(&SETUP).unwrap();
    let cache =
        future::Loading::from(cache.with_listener(move |left| tells.lock().unwrap().push((*left.key, left.cause))));
    let other = cache.clone();
    assert_eq!(block_on(other.get_with(&1, async { 7 })), Ok(Arc::new(7)));
    drop(cache);
    assert!(told.lock().unwrap().is_empty());
    drop(other);
    assert_eq!(*told.lock().unwrap(), [(1, Cause::Explicit)]);
}

#[test]
fn as_many_loads_are_open_as_the_setup_allows() {
    let (cache, gate) = (Cache::open(&Setup { flights: 2, ..SETUP }).unwrap(), Arc::new(Gate::default()));
    let mut tasks = [1, 2, 3].map(|key: u64| {
        let (cache, gate) = (cache.clone(), gate.clone());
        Task::of(async move {
            let load = async {
                gate.is_open().await;
                key
            };
            cache.get_with(&key, load).await
        })
    });
    let refused = || Some(Err(GetError::Refused(Fault::TooManyFlights)));
    assert_eq!(tasks.each_mut().map(Task::ready), [None, None, refused()]);
    gate.open();
    assert_eq!((tasks[0].ready(), tasks[1].ready()), (Some(Ok(Arc::new(1))), Some(Ok(Arc::new(2)))));
    holds_exactly(&cache);
}

#[test]
fn a_key_that_is_borrowed_and_a_loader_that_is_not_send_will_do() {
    let cache = future::Loading::<String, String, ()>::open(&Setup::of(8)).unwrap();
    let polls = std::rc::Rc::new(Cell::new(0));
    let load = async {
        polls.set(polls.get() + 1);
        yields(2).await;
        "its text".to_string()
    };
    assert_eq!(block_on(cache.get_with("a page", load)).as_deref().map(String::as_str), Ok("its text"));
    assert_eq!((polls.get(), cache.look("a page").unwrap().is_some()), (1, true));
}

#[test]
fn handles_and_futures_may_be_sent() {
    fn is_send<T: Send>(_: &T) {}
    fn is_shared<T: Send + Sync + Clone + 'static>(_: &T) {}
    let cache = future::Loading::<String, String, Down>::open(&Setup::of(8)).unwrap();
    is_shared(&cache);
    let key = String::from("a page");
    is_send(&cache.get(&key, async { Ok((String::new(), 1)) }));
    is_send(&cache.get_at("a page", 0, async { Ok((String::new(), 1)) }));
    is_send(&cache.try_get_with(&key, async { Err(Down) }));
    is_send(&cache.get_with("a page", async { String::new() }));
    assert_eq!(format!("{cache:?}"), "Loading { shards: 1, .. }");
}

#[test]
fn a_task_that_is_polled_by_another_waker_is_woken_by_that_one() {
    let (cache, gate) = (Cache::open(&SETUP).unwrap(), Gate::default());
    let mut leads = Task::of(cache.get_with(&1, async {
        gate.is_open().await;
        7
    }));
    let mut joins = Task::of(cache.get_with(&1, async { 8 }));
    assert_eq!((leads.ready(), joins.ready()), (None, None));
    let wakes = [(); 3].map(|()| Arc::new(tasks::Wakes::default()));
    let wakers = wakes.clone().map(Waker::from);
    for waker in [0, 1, 1, 2] {
        assert!(joins.poll_by(&wakers[waker]) == Poll::Pending);
    }
    // The flight keeps one waker of the task, the latest one.
    assert_eq!(wakes.each_ref().map(Arc::strong_count), [2, 2, 3]);
    gate.open();
    assert_eq!(leads.ready(), Some(Ok(Arc::new(7))));
    assert_eq!(wakes.each_ref().map(|wakes| wakes.count()), [0, 0, 1]);
    assert_eq!(joins.ready(), Some(Ok(Arc::new(7))));
}
