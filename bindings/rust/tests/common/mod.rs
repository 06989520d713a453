//! What the tests of the calls without passes share: chance, wakers that count, and a small
//! executor.
#![allow(dead_code)]

use std::collections::VecDeque;
use std::future::Future;
use std::pin::Pin;
use std::sync::atomic::{AtomicBool, AtomicU64, AtomicUsize, Ordering};
use std::sync::{Arc, Condvar, Mutex};
use std::task::{Context, Poll, Wake, Waker};
use std::thread;
use std::time::{Duration, Instant};

/// A generator of numbers by chance (xorshift).
pub struct Chance(pub u64);

impl Chance {
    pub fn below(&mut self, bound: u64) -> u64 {
        self.0 ^= self.0 << 13;
        self.0 ^= self.0 >> 7;
        self.0 ^= self.0 << 17;
        self.0 % bound
    }
}

/// Counts how often it was woken.
#[derive(Default)]
pub struct Wakes(AtomicU64);

impl Wake for Wakes {
    fn wake(self: Arc<Self>) {
        self.0.fetch_add(1, Ordering::SeqCst);
    }
}

impl Wakes {
    pub fn new() -> (Arc<Wakes>, Waker) {
        let wakes = Arc::new(Wakes::default());
        (wakes.clone(), Waker::from(wakes))
    }

    /// How often since it was asked last.
    pub fn take(&self) -> u64 {
        self.0.swap(0, Ordering::SeqCst)
    }
}

/// Polls a future once.
pub fn poll_once<F: Future + ?Sized>(future: Pin<&mut F>, waker: &Waker) -> Option<F::Output> {
    match future.poll(&mut Context::from_waker(waker)) {
        Poll::Ready(output) => Some(output),
        Poll::Pending => None,
    }
}

/// A future of which it is counted how often it was polled, and how often it asked for a poll.
pub struct Counted<F> {
    future: Pin<Box<F>>,
    polls: u64,
    wakes: Arc<AtomicU64>,
}

/// Counts wakes, and passes them on.
struct Through {
    wakes: Arc<AtomicU64>,
    waker: Waker,
}

impl Wake for Through {
    fn wake(self: Arc<Self>) {
        self.wakes.fetch_add(1, Ordering::SeqCst);
        self.waker.wake_by_ref();
    }
}

impl<F: Future> Counted<F> {
    pub fn new(future: F) -> Counted<F> {
        Counted { future: Box::pin(future), polls: 0, wakes: Arc::default() }
    }
}

impl<F: Future> Future for Counted<F> {
    /// What it gives, its polls and its wakes.
    type Output = (F::Output, u64, u64);

    fn poll(mut self: Pin<&mut Self>, cx: &mut Context<'_>) -> Poll<Self::Output> {
        self.polls += 1;
        let through = Through { wakes: self.wakes.clone(), waker: cx.waker().clone() };
        let waker = Waker::from(Arc::new(through));
        let output = poll_once(self.future.as_mut(), &waker);
        let wakes = self.wakes.load(Ordering::SeqCst);
        output.map_or(Poll::Pending, |output| Poll::Ready((output, self.polls, wakes)))
    }
}

/// Lets other tasks run once.
pub async fn yield_once() {
    let mut is_first = true;
    std::future::poll_fn(|cx| {
        if std::mem::take(&mut is_first) {
            cx.waker().wake_by_ref();
            return Poll::Pending;
        }
        Poll::Ready(())
    })
    .await
}

/// Threads that run tasks. A task is polled when it comes, and when it was woken.
pub struct Executor {
    shared: Arc<Shared>,
}

struct Shared {
    ready: Mutex<VecDeque<Arc<Task>>>,
    is_ready: Condvar,
    open: AtomicUsize,
    polls: AtomicU64,
    timers: Mutex<Vec<(Instant, Waker)>>,
}

struct Task {
    future: Mutex<Option<Pin<Box<dyn Future<Output = ()> + Send>>>>,
    is_queued: AtomicBool,
    shared: Arc<Shared>,
}

impl Wake for Task {
    fn wake(self: Arc<Self>) {
        if !self.is_queued.swap(true, Ordering::SeqCst) {
            let shared = self.shared.clone();
            shared.ready.lock().unwrap().push_back(self);
            shared.is_ready.notify_one();
        }
    }
}

impl Executor {
    pub fn new() -> Executor {
        let shared = Shared {
            ready: Mutex::default(),
            is_ready: Condvar::new(),
            open: AtomicUsize::new(0),
            polls: AtomicU64::new(0),
            timers: Mutex::default(),
        };
        Executor { shared: Arc::new(shared) }
    }

    pub fn spawn(&self, future: impl Future<Output = ()> + Send + 'static) {
        self.shared.open.fetch_add(1, Ordering::SeqCst);
        let task = Task {
            future: Mutex::new(Some(Box::pin(future))),
            is_queued: AtomicBool::new(false),
            shared: self.shared.clone(),
        };
        Arc::new(task).wake();
    }

    pub fn timer(&self) -> Timer {
        Timer(self.shared.clone())
    }

    /// Runs all tasks to the end, on so many threads, and says how many polls were made.
    pub fn run(&self, threads: usize) -> u64 {
        thread::scope(|scope| {
            for _ in 0..threads {
                scope.spawn(|| self.shared.work());
            }
            while self.shared.open.load(Ordering::SeqCst) > 0 {
                self.shared.ring();
                thread::sleep(Duration::from_micros(200));
            }
            self.shared.is_ready.notify_all();
        });
        self.shared.polls.load(Ordering::SeqCst)
    }
}

impl Shared {
    fn work(&self) {
        while self.open.load(Ordering::SeqCst) > 0 {
            let ready = self.ready.lock().unwrap();
            let wait = Duration::from_millis(1);
            let is_empty = |ready: &mut VecDeque<Arc<Task>>| ready.is_empty();
            let (mut ready, _) = self.is_ready.wait_timeout_while(ready, wait, is_empty).unwrap();
            let Some(task) = ready.pop_front() else { continue };
            drop(ready);
            task.is_queued.store(false, Ordering::SeqCst);
            let mut future = task.future.lock().unwrap();
            let Some(running) = future.as_mut() else { continue };
            self.polls.fetch_add(1, Ordering::SeqCst);
            let waker = Waker::from(task.clone());
            if poll_once(running.as_mut(), &waker).is_some() {
                *future = None;
                self.open.fetch_sub(1, Ordering::SeqCst);
            }
        }
    }

    /// Wakes those whose time has come.
    fn ring(&self) {
        let now = Instant::now();
        let mut timers = self.timers.lock().unwrap();
        let (due, later) = std::mem::take(&mut *timers).into_iter().partition(|it| it.0 <= now);
        *timers = later;
        drop(timers);
        let due: Vec<_> = due;
        for (_, waker) in due {
            waker.wake();
        }
    }
}

/// Wakes tasks after a time.
#[derive(Clone)]
pub struct Timer(Arc<Shared>);

impl Timer {
    /// What the future gives, or nothing where the time is over before.
    pub async fn within<F: Future>(&self, time: Duration, future: F) -> Option<F::Output> {
        let deadline = Instant::now() + time;
        let mut future = Some(Box::pin(future));
        let mut is_set = false;
        std::future::poll_fn(move |cx| {
            if let Some(running) = &mut future {
                if let Poll::Ready(output) = running.as_mut().poll(cx) {
                    future = None;
                    return Poll::Ready(Some(output));
                }
            }
            if Instant::now() >= deadline {
                future = None;
                return Poll::Ready(None);
            }
            if !std::mem::replace(&mut is_set, true) {
                self.0.timers.lock().unwrap().push((deadline, cx.waker().clone()));
            }
            Poll::Pending
        })
        .await
    }
}
