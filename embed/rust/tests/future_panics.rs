//! Loaders, wakers, keys and values of tasks that panic or use the cache: it stays whole, and everybody else is served.
mod common;
#[path = "common/tasks.rs"]
mod tasks;
#[path = "common/whole.rs"]
mod whole;
use common::within_a_minute;
use rookdresser::future;
use std::future::{poll_fn, Future};
use std::hash::{Hash, Hasher};
use std::panic::{catch_unwind, AssertUnwindSafe};
use std::sync::atomic::{AtomicU64, Ordering::SeqCst};
use std::sync::{Arc, Mutex};
use std::task::{Poll, RawWaker, RawWakerVTable, Wake, Waker};
use tasks::{yields, Gate, Task};
use whole::{holds_exactly, Down, SETUP};

type Cache = future::Loading<u64, u64, Down>;

// The text of a panic of the work.
fn panic_of<T>(work: impl FnOnce() -> T) -> Option<&'static str> {
    let panic = catch_unwind(AssertUnwindSafe(|| drop(work()))).err()?;
    Some(panic.downcast_ref::<&str>().expect("a panic has a text"))
}

// A load that ends once the gate is open.
async fn gated(gate: &Gate, value: u64) -> u64 {
    gate.is_open().await;
    value
}

#[test]
fn a_loader_that_panics_is_asked_again_by_those_who_joined() {
    for polls in 0..2 {
        let cache = Cache::open(&SETUP).unwrap();
        let mut leads = Task::of(cache.get_with(&1, async {
            yields(polls).await;
            if polls == 0 {
                panic!("of the loader");
            }
            yields(1).await;
            panic!("of the loader")
        }));
        let mut joins = Task::of(cache.get_with(&1, async { 8 }));
        if polls > 0 {
            assert_eq!((leads.ready(), joins.ready()), (None, None));
            assert_eq!(leads.ready(), None);
        }
        assert_eq!(panic_of(|| leads.poll()), Some("of the loader"));
        assert_eq!((joins.wakes(), joins.ready()), (polls, Some(Ok(Arc::new(8)))));
        assert_eq!((cache.stats().failed, cache.stats().loads), (1, 1));
        drop(leads);
        holds_exactly(&cache);
    }
}

// Calls something as it wakes.
struct Calls<F: Fn() + Send + Sync>(F);

impl<F: Fn() + Send + Sync> Wake for Calls<F> {
    fn wake(self: Arc<Self>) {
        (self.0)();
    }
}

fn calls(call: impl Fn() + Send + Sync + 'static) -> Waker {
    Arc::new(Calls(call)).into()
}

#[test]
fn a_waker_that_panics_keeps_nobody_from_being_woken_and_nothing_from_being_stored() {
    let (cache, gate, woken) = (Cache::open(&SETUP).unwrap(), Gate::default(), Arc::new(AtomicU64::new(0)));
    let mut leads = Task::of(cache.get_with(&1, gated(&gate, 7)));
    assert_eq!(leads.ready(), None);
    let mut joins: Vec<_> = (0..4).map(|value| Task::of(cache.get_with(&1, async move { value }))).collect();
    for (at, task) in joins.iter_mut().enumerate() {
        let woken = woken.clone();
        let waker = calls(move || {
            woken.fetch_add(1, SeqCst);
            assert!(at % 2 == 0, "of a waker");
        });
        assert!(task.poll_by(&waker).is_pending());
    }
    gate.open();
    // The task that loaded gets the panic, once all is done.
    assert_eq!((panic_of(|| leads.poll()), woken.load(SeqCst)), (Some("of a waker"), 4));
    assert!(joins.iter_mut().all(|task| task.ready() == Some(Ok(Arc::new(7)))));
    assert_eq!(cache.look(&1), Ok(Some(Arc::new(7))));
    drop(leads);
    holds_exactly(&cache);
}

#[test]
fn a_waker_may_use_the_cache_and_poll_the_task_that_it_wakes() {
    within_a_minute(|| {
        let (cache, gate) = (Cache::open(&SETUP).unwrap(), Gate::default());
        let mut leads = Task::of(cache.get_with(&1, gated(&gate, 7)));
        assert_eq!(leads.ready(), None);
        let own = cache.clone();
        let joins = Box::pin(async move { own.get_with(&1, async { 8 }).await.map(|value| *value) });
        let task = Arc::new(Inline { task: Mutex::new(Some(joins)), cache: cache.clone() });
        task.clone().wake();
        gate.open();
        assert_eq!((leads.ready(), cache.look(&2)), (Some(Ok(Arc::new(7))), Ok(Some(Arc::new(7)))));
        assert!(task.task.lock().unwrap().is_none());
        assert_eq!((cache.drop_key(&1).unwrap().len(), cache.stats().joins), (0, 1));
        holds_exactly(&cache);
    });
}

type Answers = std::pin::Pin<Box<dyn Future<Output = Result<u64, rookdresser::GetError<Down>>> + Send>>;

// Polls its task wherever it is woken. Once that is done it stores the value under another key, and drops the own one.
struct Inline {
    task: Mutex<Option<Answers>>,
    cache: Cache,
}

impl Wake for Inline {
    fn wake(self: Arc<Self>) {
        let Some(mut task) = self.task.lock().unwrap().take() else { return };
        match task.as_mut().poll(&mut std::task::Context::from_waker(&self.clone().into())) {
            Poll::Ready(value) => {
                self.cache.store(&2, value.unwrap(), 1).unwrap();
                assert_eq!(self.cache.drop_key(&1).unwrap().len(), 1);
            }
            Poll::Pending => *self.task.lock().unwrap() = Some(task),
        }
    }
}

// A waker whose clone and drop use the cache, and panic if they are told to.
struct Strange {
    cache: Cache,
    clones: AtomicU64,
    drops: AtomicU64,
    panics_at_clone: u64,
    panics_at_drop: u64,
}

static STRANGE: RawWakerVTable = RawWakerVTable::new(
    |of| {
        // SAFETY: a strange waker is made of a `Strange` that lives as long as the test.
        let strange = unsafe { &*of.cast::<Strange>() };
        strange.cache.look(&5).unwrap();
        let clones = strange.clones.fetch_add(1, SeqCst) + 1;
        assert!(clones != strange.panics_at_clone, "of a clone");
        RawWaker::new(of, &STRANGE)
    },
    |_| {},
    |_| {},
    |of| {
        // SAFETY: as above.
        let strange = unsafe { &*of.cast::<Strange>() };
        strange.cache.look(&5).unwrap();
        let drops = strange.drops.fetch_add(1, SeqCst) + 1;
        assert!(drops != strange.panics_at_drop, "of a drop");
    },
);

#[test]
fn a_waker_whose_clone_or_drop_panics_or_uses_the_cache_spoils_nothing() {
    // It is cloned as the task begins to wait, and dropped if the task waits by another waker or waits no longer.
    for (panics_at_clone, panics_at_drop) in [(0, 0), (1, 0), (0, 1)] {
        let (cache, gate) = (Cache::open(&SETUP).unwrap(), Gate::default());
        let (clones, drops) = (AtomicU64::new(0), AtomicU64::new(0));
        let strange = Strange { cache: cache.clone(), clones, drops, panics_at_clone, panics_at_drop };
        // SAFETY: the functions of `STRANGE` are those of a waker, and `strange` outlives all of its clones.
        let waker = unsafe { Waker::from_raw(RawWaker::new((&raw const strange).cast(), &STRANGE)) };
        let waker = std::mem::ManuallyDrop::new(waker);
        let mut leads = Task::of(cache.get_with(&1, gated(&gate, 7)));
        let mut joins = Some(Task::of(cache.get_with(&1, async { 8 })));
        assert_eq!(leads.ready(), None);
        let polled = panic_of(|| joins.as_mut().unwrap().poll_by(&waker));
        assert_eq!(polled, (panics_at_clone == 1).then_some("of a clone"));
        let left = panic_of(|| joins = None);
        assert_eq!(left, (panics_at_drop == 1).then_some("of a drop"));
        assert_eq!(strange.drops.load(SeqCst), u64::from(panics_at_clone == 0));
        gate.open();
        assert_eq!(leads.ready(), Some(Ok(Arc::new(7))));
        holds_exactly(&cache);
    }
}

// Things that are counted, and panic as they are dropped if they are told to.
#[derive(Default)]
struct Fuse {
    live: AtomicU64,
    is_lit: AtomicU64,
}

impl Fuse {
    fn thing(self: &Arc<Fuse>, number: u64) -> Thing {
        self.live.fetch_add(1, SeqCst);
        Thing { number, fuse: self.clone() }
    }
}

struct Thing {
    number: u64,
    fuse: Arc<Fuse>,
}

impl Drop for Thing {
    fn drop(&mut self) {
        self.fuse.live.fetch_sub(1, SeqCst);
        assert!(self.fuse.is_lit.load(SeqCst) == 0, "of a drop");
    }
}

#[test]
fn a_loader_and_the_drop_of_what_its_future_owns_may_both_panic() {
    let (cache, fuse) = (Cache::open(&SETUP).unwrap(), Arc::new(Fuse::default()));
    let thing = fuse.thing(1);
    let mut task = Task::of(cache.get(
        &1,
        poll_fn(move |_| {
            thing.fuse.is_lit.store(1, SeqCst);
            panic!("of the loader")
        }),
    ));
    assert_eq!((panic_of(|| task.poll()), fuse.live.load(SeqCst)), (Some("of the loader"), 0));
    assert_eq!(cache.stats().failed, 1);
    holds_exactly(&cache);
}

#[test]
fn what_a_loader_owns_may_panic_as_its_call_is_dropped_or_ends() {
    let (cache, fuse) = (Cache::open(&SETUP).unwrap(), Arc::new(Fuse::default()));
    let of = |ready: bool| {
        let thing = fuse.thing(1);
        let load = poll_fn(move |_| {
            let thing = &thing;
            if ready {
                Poll::Ready(Ok((thing.number, 1)))
            } else {
                Poll::Pending
            }
        });
        Task::of(cache.get(&1, load))
    };
    let (mut leads, mut joins) = (of(false), of(true));
    assert_eq!((leads.ready(), joins.ready()), (None, None));
    fuse.is_lit.store(1, SeqCst);
    assert_eq!((panic_of(|| drop(leads)), joins.wakes()), (Some("of a drop"), 1));
    // The load has landed before the call panics.
    assert_eq!((panic_of(|| joins.poll()), cache.look(&1)), (Some("of a drop"), Ok(Some(Arc::new(1)))));
    assert_eq!((fuse.live.load(SeqCst), cache.stats().failed, cache.stats().loads), (0, 1, 1));
    holds_exactly(&cache);
}

#[derive(Clone, PartialEq, Eq)]
struct Unhashed;

impl Hash for Unhashed {
    fn hash<H: Hasher>(&self, _: &mut H) {
        panic!("of the hash");
    }
}

#[test]
fn a_hash_and_what_the_loader_owns_may_both_panic() {
    let cache = future::Loading::<Unhashed, u64, Down>::open(&SETUP).unwrap();
    let fuse = Arc::new(Fuse::default());
    let thing = fuse.thing(1);
    fuse.is_lit.store(1, SeqCst);
    let load = async move {
        let thing = thing;
        thing.number
    };
    let mut task = Task::of(cache.get_with(&Unhashed, load));
    assert_eq!((panic_of(|| task.poll()), fuse.live.load(SeqCst)), (Some("of the hash"), 0));
}

#[test]
fn whoever_is_dropped_with_the_last_share_of_a_value_that_panics_spoils_nothing() {
    let cache = future::Loading::<u64, Thing, Down>::open(&SETUP).unwrap();
    let (fuse, gate) = (Arc::new(Fuse::default()), Gate::default());
    let load = async {
        gate.is_open().await;
        Ok((fuse.thing(7), 2000)) // too heavy to be stored
    };
    let mut leads = Task::of(cache.get(&1, load));
    let mut joins = Task::of(cache.get_with(&1, async { unreachable!("it isn't asked again") }));
    assert!(leads.ready().is_none() && joins.ready().is_none());
    gate.open();
    drop(leads.ready());
    assert_eq!(fuse.live.load(SeqCst), 1);
    fuse.is_lit.store(1, SeqCst);
    assert_eq!((panic_of(|| drop(joins)), fuse.live.load(SeqCst)), (Some("of a drop"), 0));
    holds_exactly(&cache);
}
