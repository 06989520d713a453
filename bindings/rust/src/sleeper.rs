//! A thread that sleeps until it is woken, or until its deadline.

use crate::wakers::lock;
use std::hint;
use std::sync::atomic::{AtomicU32, Ordering};
use std::sync::{Arc, Condvar, Mutex, PoisonError};
use std::task::{Wake, Waker};
use std::time::{Duration, Instant};

const AWAKE: u32 = 0;
const ASLEEP: u32 = 1;
const WOKEN: u32 = 2;

/// For so many turns a thread stays on its processor before it sleeps: some microseconds, which is
/// what it costs to fall asleep and to be woken.
const TURNS: u32 = 100;

/// One sleep. It has a condition variable of its own, so it takes nothing from those who park and
/// unpark the thread, and nobody who is late wakes the next sleep.
#[derive(Debug, Default)]
pub(crate) struct Sleeper {
    state: AtomicU32,
    lock: Mutex<()>,
    woken: Condvar,
}

impl Wake for Sleeper {
    fn wake(self: Arc<Self>) {
        self.wake_by_ref();
    }

    fn wake_by_ref(self: &Arc<Self>) {
        if self.state.swap(WOKEN, Ordering::SeqCst) == ASLEEP {
            // Who falls asleep has the lock until it sleeps.
            drop(lock(&self.lock));
            self.woken.notify_one();
        }
    }
}

impl Sleeper {
    pub(crate) fn new() -> Arc<Sleeper> {
        Arc::new(Sleeper::default())
    }

    pub(crate) fn waker(self: &Arc<Self>) -> Waker {
        Waker::from(self.clone())
    }

    /// Sleeps until it is woken, or until the deadline, and says whether it was woken.
    pub(crate) fn sleep(&self, deadline: Option<Instant>) -> bool {
        for _ in 0..TURNS {
            if self.is_woken() {
                return true;
            }
            hint::spin_loop();
        }
        let mut guard = lock(&self.lock);
        let fell = self.state.compare_exchange(AWAKE, ASLEEP, Ordering::SeqCst, Ordering::SeqCst);
        if fell.is_err() {
            return true;
        }
        while !self.is_woken() {
            let Some(deadline) = deadline else {
                guard = self.woken.wait(guard).unwrap_or_else(PoisonError::into_inner);
                continue;
            };
            let left = deadline.saturating_duration_since(Instant::now());
            if left.is_zero() {
                return false;
            }
            let waited = self.woken.wait_timeout(guard, left);
            guard = waited.unwrap_or_else(PoisonError::into_inner).0;
        }
        true
    }

    fn is_woken(&self) -> bool {
        self.state.load(Ordering::SeqCst) == WOKEN
    }
}

/// The moment when this time is over; none where there is no such moment.
pub(crate) fn deadline_after(time: Duration) -> Option<Instant> {
    Instant::now().checked_add(time)
}
