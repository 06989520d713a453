//! Threads on one semaphore.

use cqs::pass::{Acquired, Cancelled, Semaphore, SemaphoreConfig};
use std::cell::UnsafeCell;
use std::sync::atomic::{AtomicI64, AtomicU64, Ordering};
use std::thread;

/// A number that only who has the one permit may touch.
struct Guarded(UnsafeCell<u64>);

// SAFETY: the tests touch it with the permit alone.
unsafe impl Sync for Guarded {}

#[test]
fn one_permit_excludes() {
    const THREADS: u64 = 4;
    const ROUNDS: u64 = 2_000;
    let semaphore = Semaphore::new(SemaphoreConfig::default()).unwrap();
    let number = Guarded(UnsafeCell::new(0));
    let given_up = AtomicU64::new(0);
    thread::scope(|scope| {
        for thread in 0..THREADS {
            let (semaphore, number, given_up) = (&semaphore, &number, &given_up);
            scope.spawn(move || {
                let mut pass = semaphore.pass().unwrap();
                for round in 0..ROUNDS {
                    let permit = match pass.acquire().unwrap() {
                        Acquired::Now(permit) => permit,
                        Acquired::Later(wait) if (round + thread) % 3 == 0 => match wait.cancel() {
                            Cancelled::Gone(_) => {
                                given_up.fetch_add(1, Ordering::Relaxed);
                                continue;
                            }
                            Cancelled::TooLate(permit) => permit,
                        },
                        Acquired::Later(mut wait) => loop {
                            match wait.poll() {
                                Ok(permit) => break permit,
                                Err(again) => wait = again,
                            }
                            thread::yield_now();
                        },
                    };
                    // SAFETY: this thread has the one permit.
                    unsafe { *number.0.get() += 1 };
                    permit.release();
                }
            });
        }
    });
    let added = number.0.into_inner();
    assert_eq!(added + given_up.load(Ordering::Relaxed), THREADS * ROUNDS);
    assert_eq!(semaphore.pass().unwrap().state(), 1);
}

#[test]
fn never_more_than_its_permits() {
    let semaphore =
        Semaphore::new(SemaphoreConfig { permits: 3, ..SemaphoreConfig::default() }).unwrap();
    let (inside, most) = (AtomicI64::new(0), AtomicI64::new(0));
    thread::scope(|scope| {
        for _ in 0..6 {
            let (semaphore, inside, most) = (&semaphore, &inside, &most);
            scope.spawn(move || {
                let mut pass = semaphore.pass().unwrap();
                for _ in 0..1_000 {
                    let permit = pass.acquire_yielding().unwrap();
                    most.fetch_max(inside.fetch_add(1, Ordering::SeqCst) + 1, Ordering::SeqCst);
                    inside.fetch_sub(1, Ordering::SeqCst);
                    permit.release();
                }
            });
        }
    });
    assert!(most.into_inner() <= 3);
    assert_eq!(semaphore.pass().unwrap().state(), 3);
}
