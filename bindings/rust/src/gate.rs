//! A gate: all who wait at it are woken once it is open.

use crate::errors::TimeoutError;
use crate::sleeper::Sleeper;
use crate::wakers::lock;
use std::sync::Mutex;
use std::sync::atomic::{AtomicBool, Ordering};
use std::task::Waker;
use std::time::Instant;

/// A gate, and those who wait at it, in the order of the numbers of their waits.
#[derive(Debug, Default)]
pub(crate) struct Gate {
    is_open: AtomicBool,
    waiters: Mutex<Vec<(u64, Waker)>>,
}

impl Gate {
    pub(crate) fn is_open(&self) -> bool {
        self.is_open.load(Ordering::SeqCst)
    }

    /// Opens it, and wakes all who wait.
    pub(crate) fn open(&self) {
        if self.is_open() {
            return;
        }
        let mut waiters = lock(&self.waiters);
        self.is_open.store(true, Ordering::SeqCst);
        let woken = std::mem::take(&mut *waiters);
        drop(waiters);
        for (_, waker) in woken {
            waker.wake();
        }
    }

    /// A waiter comes, or is polled again, and says by which waker it is woken. Says whether the
    /// gate is open; then it isn't woken.
    pub(crate) fn register(&self, number: u64, waker: &Waker) -> bool {
        if self.is_open() {
            return true;
        }
        let mut waker = waker.clone();
        let mut waiters = lock(&self.waiters);
        if self.is_open() {
            return true;
        }
        match waiters.binary_search_by_key(&number, |waiter| waiter.0) {
            Ok(at) => std::mem::swap(&mut waiters[at].1, &mut waker),
            Err(at) => {
                waiters.insert(at, (number, waker));
                return false;
            }
        }
        drop(waiters);
        drop(waker);
        false
    }

    /// A waiter leaves.
    pub(crate) fn strike(&self, number: u64) {
        let mut waiters = lock(&self.waiters);
        let at = waiters.binary_search_by_key(&number, |waiter| waiter.0);
        let waiter = at.ok().map(|at| waiters.remove(at));
        drop(waiters);
        drop(waiter);
    }

    /// A waiter sleeps until the gate is open, or until the deadline.
    pub(crate) fn pass(&self, number: u64, deadline: Option<Instant>) -> Result<(), TimeoutError> {
        let sleeper = Sleeper::new();
        if self.register(number, &sleeper.waker()) || sleeper.sleep(deadline) {
            return Ok(());
        }
        self.strike(number);
        if self.is_open() { Ok(()) } else { Err(TimeoutError::TimedOut) }
    }
}
