//! Tasks that a test polls by hand, and a runtime of some threads.
#![allow(dead_code)] // not every test needs all of them
use std::collections::VecDeque;
use std::future::{poll_fn, Future};
use std::pin::Pin;
use std::sync::atomic::{AtomicU64, Ordering::SeqCst};
use std::sync::{Arc, Condvar, Mutex};
use std::task::{Context, Poll, Wake, Waker};

/// How often a task was woken.
#[derive(Default)]
pub struct Wakes(AtomicU64);

impl Wakes {
    pub fn count(&self) -> u64 {
        self.0.load(SeqCst)
    }
}

impl Wake for Wakes {
    fn wake(self: Arc<Self>) {
        self.0.fetch_add(1, SeqCst);
    }
}

/// A task that is polled by hand.
pub struct Task<'a, T> {
    future: Pin<Box<dyn Future<Output = T> + 'a>>,
    wakes: Arc<Wakes>,
}

impl<'a, T> Task<'a, T> {
    pub fn of(future: impl Future<Output = T> + 'a) -> Self {
        Task { future: Box::pin(future), wakes: Arc::default() }
    }

    /// Polls it by its own waker. It counts wakes from now on.
    pub fn poll(&mut self) -> Poll<T> {
        self.wakes = Arc::default();
        let waker = self.wakes.clone().into();
        self.poll_by(&waker)
    }

    pub fn poll_by(&mut self, waker: &Waker) -> Poll<T> {
        self.future.as_mut().poll(&mut Context::from_waker(waker))
    }

    /// What it returns, if it is ready.
    pub fn ready(&mut self) -> Option<T> {
        match self.poll() {
            Poll::Ready(done) => Some(done),
            Poll::Pending => None,
        }
    }

    pub fn handed_over(self) -> Pin<Box<dyn Future<Output = T> + 'a>> {
        self.future
    }

    pub fn wakes(&self) -> u64 {
        self.wakes.count()
    }
}

/// Has the task polled again so often before it goes on.
pub async fn yields(times: u64) {
    for _ in 0..times {
        let mut is_first = true;
        poll_fn(|context| {
            if std::mem::take(&mut is_first) {
                context.waker().wake_by_ref();
                return Poll::Pending;
            }
            Poll::Ready(())
        })
        .await;
    }
}

/// Something that tasks wait for, until it is opened.
#[derive(Default)]
pub struct Gate(Mutex<(bool, Vec<Waker>)>);

impl Gate {
    pub fn open(&self) {
        let mut gate = self.0.lock().unwrap();
        gate.0 = true;
        let wakers = std::mem::take(&mut gate.1);
        drop(gate);
        wakers.into_iter().for_each(Waker::wake);
    }

    pub async fn is_open(&self) {
        poll_fn(|context| {
            let mut gate = self.0.lock().unwrap();
            if gate.0 {
                return Poll::Ready(());
            }
            gate.1.push(context.waker().clone());
            Poll::Pending
        })
        .await;
    }
}

#[derive(Default)]
struct Queue {
    ready: Mutex<(VecDeque<usize>, usize)>,
    bell: Condvar,
}

struct OneOf {
    queue: Arc<Queue>,
    task: usize,
}

impl Wake for OneOf {
    fn wake(self: Arc<Self>) {
        self.queue.ready.lock().unwrap().0.push_back(self.task);
        self.queue.bell.notify_one();
    }
}

/// A task of the runtime.
pub type Spawned<'a> = Pin<Box<dyn Future<Output = ()> + Send + 'a>>;

/// Runs the tasks on so many threads until all are done. A thread may poll a task that another one polled before.
pub fn run(threads: usize, tasks: Vec<Spawned<'_>>) {
    let queue = Arc::new(Queue::default());
    *queue.ready.lock().unwrap() = ((0..tasks.len()).collect(), tasks.len());
    let tasks: Vec<_> = tasks.into_iter().map(|task| Mutex::new(Some(task))).collect();
    std::thread::scope(|scope| {
        for _ in 0..threads {
            scope.spawn(|| run_some(&queue, &tasks));
        }
    });
}

fn run_some(queue: &Arc<Queue>, tasks: &[Mutex<Option<Spawned<'_>>>]) {
    loop {
        let is_idle = |ready: &mut (VecDeque<usize>, usize)| ready.0.is_empty() && ready.1 > 0;
        let mut ready = queue.bell.wait_while(queue.ready.lock().unwrap(), is_idle).unwrap();
        let Some(at) = ready.0.pop_front() else { return };
        drop(ready);
        let waker = Arc::new(OneOf { queue: queue.clone(), task: at }).into();
        let mut task = tasks[at].lock().unwrap();
        let is_done = task.as_mut().is_some_and(|task| task.as_mut().poll(&mut Context::from_waker(&waker)).is_ready());
        if is_done {
            *task = None;
            queue.ready.lock().unwrap().1 -= 1;
            queue.bell.notify_all();
        }
    }
}
