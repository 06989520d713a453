//! A release that meets a waiter who is just leaving: it goes on to the next one, who is woken.

mod common;

use common::{Wakes, poll_once};
use cqs::{Pool, Semaphore, WaitError};
use std::future::Future;
use std::hint::spin_loop;
use std::pin::Pin;
use std::sync::atomic::{AtomicU64, Ordering};
use std::task::Waker;
use std::thread;
use std::time::{Duration, Instant};

/// As many rounds as go into this time, but no more than these: a round draws three numbers of
/// waits, about, and a primitive has 1,048,576.
const TIME: Duration = Duration::from_secs(2);
const MOST_ROUNDS: u64 = 250_000;

type Taking<'a, T> = Pin<Box<dyn Future<Output = Result<T, WaitError>> + 'a>>;

/// How long a thread looks for what the other one does, which may have failed.
const PATIENCE: Duration = Duration::from_secs(60);

/// Looks until it is so, and lets other threads run after many looks.
fn until(is_so: impl Fn() -> bool) {
    let mut since = None;
    for look in 1u64.. {
        if is_so() {
            return;
        }
        if look % 4096 == 0 {
            let waited = since.get_or_insert_with(Instant::now).elapsed();
            assert!(waited < PATIENCE, "the other thread did not come");
            thread::yield_now();
        }
        spin_loop();
    }
}

/// Two threads come to each step at the same time.
#[derive(Default)]
struct Steps(AtomicU64);

impl Steps {
    fn come(&self, step: u64) {
        self.0.fetch_add(1, Ordering::SeqCst);
        until(|| self.0.load(Ordering::SeqCst) >= 2 * step);
    }
}

fn waits<'a, T>(take: impl Fn() -> Taking<'a, T>, waker: &Waker) -> Taking<'a, T> {
    let mut taking = take();
    assert!(poll_once(taking.as_mut(), waker).is_none());
    taking
}

/// In each round one has it, the first in line leave while it is given back, and the last one in
/// line must be woken: by whoever serves it.
fn goes_on<'a, T>(take: impl Fn() -> Taking<'a, T> + Sync) -> u64 {
    let steps = Steps::default();
    let last_round = AtomicU64::new(u64::MAX);
    let begin = Instant::now();
    thread::scope(|scope| {
        scope.spawn(|| {
            for round in 0.. {
                steps.come(3 * round + 1);
                if round == last_round.load(Ordering::SeqCst) {
                    return;
                }
                // Several may leave, so one may leave what it got to another one who leaves.
                let leaving: Vec<_> =
                    (0..1 + round % 3).map(|_| waits(&take, Waker::noop())).collect();
                steps.come(3 * round + 2);
                steps.come(3 * round + 3);
                drop(leaving);
            }
        });
        for round in 0.. {
            let held = poll_once(take().as_mut(), Waker::noop()).expect("it is free").unwrap();
            if round == MOST_ROUNDS || begin.elapsed() > TIME {
                last_round.store(round, Ordering::SeqCst);
                steps.come(3 * round + 1);
                return round;
            }
            steps.come(3 * round + 1);
            steps.come(3 * round + 2);
            let (wakes, waker) = Wakes::new();
            let mut last = waits(&take, &waker);
            steps.come(3 * round + 3);
            for _ in 0..round % 32 {
                spin_loop();
            }
            drop(held);
            // Who leaves may serve it, a little later.
            until(|| wakes.take() > 0);
            drop(poll_once(last.as_mut(), &waker).expect("it was served").unwrap());
        }
        unreachable!()
    })
}

#[test]
fn what_is_given_back_goes_on() {
    let semaphore = Semaphore::new(1);
    let rounds = goes_on(|| Box::pin(semaphore.acquire()));
    assert_eq!(semaphore.available_permits(), 1);
    let pool = Pool::new([7]);
    let more = goes_on(|| Box::pin(pool.take()));
    assert_eq!(pool.into_values(), [7]);
    assert!(rounds > 0 && more > 0);
}
