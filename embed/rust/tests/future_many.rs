//! Calls of tasks for several keys at once.
mod common;
#[path = "common/tasks.rs"]
mod tasks;
#[path = "common/whole.rs"]
mod whole;
use common::within_a_minute;
use rookdresser::{future, GetError, Setup};
use std::collections::HashMap;
use std::future::Future;
use std::sync::Arc;
use tasks::{run, yields, Gate, Spawned, Task};
use whole::{holds_exactly, panics, Down, SETUP};

type Cache = future::Loading<u64, u64, Down>;
type Loaded = Result<HashMap<u64, (u64, u32)>, Down>;
type Found = Result<Vec<(u64, u64)>, GetError<Down>>;

const CIRCLE: Result<Arc<u64>, GetError<Down>> = Err(GetError::WaitsForItself);

// What a loader returns of these keys once the gate is open: of each a hundred times the key, which weighs 1.
fn gated<'a>(gate: &'a Gate, keys: Vec<&u64>) -> impl Future<Output = Loaded> + 'a {
    let loaded = keys.into_iter().map(|&key| (key, (100 * key, 1))).collect();
    async move {
        gate.is_open().await;
        Ok(loaded)
    }
}

// A task's call for these keys. It returns what it found, in the order of the keys.
fn asks<'a, F: Future<Output = Loaded> + 'a>(
    cache: &'a Cache,
    keys: &'a [u64],
    load: impl FnMut(Vec<&'a u64>) -> F + 'a,
) -> Task<'a, Found> {
    Task::of(async move {
        let found = cache.get_many(keys, load).await?;
        let mut found: Vec<_> = found.into_iter().map(|(key, value)| (*key, *value)).collect();
        found.sort_unstable();
        Ok(found)
    })
}

#[test]
fn tasks_and_threads_share_the_loads() {
    within_a_minute(|| {
        let (cache, gate) = (Cache::open(&SETUP).unwrap(), Gate::default());
        cache.store(&1, 7, 1).unwrap();
        let mut leads = asks(&cache, &[1, 2, 3], |absent| {
            assert_eq!(absent, [&2, &3]);
            gated(&gate, absent)
        });
        let mut joins = asks(&cache, &[3, 4], |absent| {
            assert_eq!(absent, [&4]);
            gated(&gate, absent)
        });
        assert_eq!((leads.ready(), joins.ready()), (None, None));
        std::thread::scope(|s| {
            s.spawn(|| assert_eq!(cache.blocking().get_with(&2, || unreachable!("it is loaded")), Ok(Arc::new(200))));
            while cache.stats().joins < 2 {
                std::thread::yield_now();
            }
            gate.open();
            // The load of 4 is made, and then waits for that of 3.
            assert_eq!(joins.ready(), None);
            assert_eq!(leads.ready(), Some(Ok(vec![(1, 7), (2, 200), (3, 300)])));
        });
        assert_eq!((joins.wakes(), joins.ready()), (1, Some(Ok(vec![(3, 300), (4, 400)]))));
        assert_eq!((cache.stats().loads, cache.stats().joins), (3, 2));
        holds_exactly(&cache);
    });
}

#[test]
fn a_call_may_be_dropped_at_each_await_and_those_who_wait_load_in_its_place() {
    for polls in 0..5 {
        let (cache, open) = (Cache::open(&SETUP).unwrap(), Gate::default());
        open.open();
        let mut leads = asks(&cache, &[1, 2], |absent| {
            let load = gated(&open, absent);
            async {
                yields(3).await;
                load.await
            }
        });
        let polled = (0..polls).map(|_| leads.ready()).collect::<Vec<_>>();
        assert_eq!(
            polled,
            [None, None, None, Some(Ok(vec![(1, 100), (2, 200)]))].into_iter().take(polls).collect::<Vec<_>>()
        );
        let mut joins = asks(&cache, &[2, 1, 3], |absent| gated(&open, absent));
        // By the fourth poll all is loaded; before, this one has loaded 3 alone.
        let is_over = polls > 3;
        assert_eq!(joins.ready().is_some(), is_over || polls == 0);
        drop(leads);
        if !is_over && polls > 0 {
            assert_eq!((joins.wakes(), cache.stats().failed), (1, 2));
            assert_eq!(joins.ready(), Some(Ok(vec![(1, 100), (2, 200), (3, 300)])));
        }
        assert_eq!((cache.stats().loads, cache.numbers().flights), (3, 0));
        holds_exactly(&cache);
    }
}

#[test]
fn a_loader_that_asks_for_one_of_its_keys_is_told() {
    for own in [1, 2, 3] {
        let cache = Cache::open(&SETUP).unwrap();
        let mut task = asks(&cache, &[1, 2, 3], |_| async {
            yields(1).await;
            assert_eq!(cache.get_with(&own, async { 5 }).await, CIRCLE);
            Ok([(1, (7, 1))].into())
        });
        assert_eq!((task.ready(), task.ready()), (None, Some(Ok(vec![(1, 7)]))));
        holds_exactly(&cache);
    }
}

#[test]
fn loads_of_several_keys_that_wait_for_each_other_are_told() {
    // Whichever keys of the other's they ask for.
    for (first, second) in [(1, 3), (1, 4), (2, 3), (2, 4)] {
        let cache = Cache::open(&SETUP).unwrap();
        let load = |other: u64| {
            let cache = &cache;
            move |absent: Vec<&u64>| {
                let keys: Vec<_> = absent.into_iter().copied().collect();
                async move {
                    yields(1).await;
                    let value = cache.get_with(&other, async { 0 }).await.map_or(7, |value| *value);
                    Ok(keys.into_iter().map(|key| (key, (value + 1, 1))).collect())
                }
            }
        };
        let (mut one, mut other) = (asks(&cache, &[1, 2], load(second)), asks(&cache, &[3, 4], load(first)));
        assert_eq!((one.ready(), other.ready(), one.ready()), (None, None, None));
        // The last to wait is told, so its loader takes 7.
        assert_eq!((other.ready(), one.ready()), (Some(Ok(vec![(3, 8), (4, 8)])), Some(Ok(vec![(1, 9), (2, 9)]))));
        holds_exactly(&cache);
    }
}

#[test]
fn a_loader_that_panics_ends_its_loads_and_leaves_its_task_free() {
    for polls in 0..2 {
        let (cache, open) = (Cache::open(&SETUP).unwrap(), Gate::default());
        open.open();
        let mut leads = asks(&cache, &[1, 2], |_| async move {
            yields(polls).await;
            panic!("of the loader")
        });
        let mut joins = asks(&cache, &[2, 3], |absent| gated(&open, absent));
        if polls > 0 {
            assert_eq!((leads.ready(), joins.ready()), (None, None));
        }
        assert!(panics(|| drop(leads.poll())));
        assert_eq!(joins.ready(), Some(Ok(vec![(2, 200), (3, 300)])));
        assert_eq!((cache.stats().failed, cache.stats().loads), (2, 2));
        // The thread makes no load any more: it may wait for one.
        let got = cache.blocking().get_with(&1, || 1);
        assert_eq!(got, Ok(Arc::new(1)));
        drop(leads);
        holds_exactly(&cache);
    }
}

#[test]
fn what_a_loader_owns_is_dropped_once_its_loads_are_over() {
    // Loads the keys as it is dropped.
    struct Loads(Cache);
    impl Drop for Loads {
        fn drop(&mut self) {
            for key in [1, 2] {
                assert_eq!(self.0.blocking().get_with(&key, || 8), Ok(Arc::new(8)));
            }
        }
    }
    within_a_minute(|| {
        let cache = Cache::open(&Setup::of(100)).unwrap();
        let owned = cache.clone();
        let mut task = asks(&cache, &[1, 2], move |_| {
            let owned = Loads(owned.clone());
            async move {
                let _owned = owned;
                yields(9).await;
                unreachable!("the call is dropped before")
            }
        });
        assert_eq!(task.ready(), None);
        drop(task);
        assert_eq!((cache.stats().failed, cache.look(&2)), (2, Ok(Some(Arc::new(8)))));
        holds_exactly(&cache);
    });
}

#[test]
fn calls_go_on_in_whichever_thread_polls_them() {
    within_a_minute(|| {
        let cache = Cache::open(&Setup::of(100)).unwrap();
        let call = |task: u64| {
            let cache = &cache;
            async move {
                let keys = [2 * task, 2 * task + 1];
                let found = cache.get_many(&keys, |_| async move {
                    for key in keys {
                        yields(20).await;
                        assert_eq!(cache.get_with(&key, async { 5 }).await, CIRCLE);
                    }
                    Ok(keys.map(|key| (key, (100 * key, 1))).into())
                });
                assert_eq!(found.await, Ok(keys.each_ref().map(|key| (key, Arc::new(100 * key))).into()));
            }
        };
        run(4, (0..8).map(|task| Box::pin(call(task)) as Spawned).collect());
        assert_eq!(cache.stats().loads, 16);
        holds_exactly(&cache);
    });
}
