//! Ten thousand tasks on a few threads, which take, give up, and run out of time.

mod common;

use common::{Chance, Counted, Executor, poll_once, yield_once};
use cqs::{
    Barrier, Latch, LatchConfig, Mutex, MutexConfig, Pool, PoolConfig, Semaphore, SemaphoreConfig,
};
use std::future::Future;
use std::pin::pin;
use std::sync::Arc;
use std::sync::atomic::{AtomicU64, AtomicUsize, Ordering};
use std::task::Waker;
use std::time::Duration;

const TASKS: u64 = 10_000;
const THREADS: usize = 4;

/// All of them may wait at once, and those who leave may be far apart from those who stay.
const WAITERS: usize = 4 * TASKS as usize;

/// The most polls that a future needed, and the most that it asked for.
#[derive(Default)]
struct Most {
    polls: AtomicU64,
    wakes: AtomicU64,
}

impl Most {
    /// Awaits the future.
    async fn count<F: Future>(&self, future: F) -> F::Output {
        let (output, polls, wakes) = Counted::new(future).await;
        self.polls.fetch_max(polls, Ordering::SeqCst);
        self.wakes.fetch_max(wakes, Ordering::SeqCst);
        output
    }

    fn polls(&self) -> u64 {
        self.polls.load(Ordering::SeqCst)
    }

    fn wakes(&self) -> u64 {
        self.wakes.load(Ordering::SeqCst)
    }
}

#[test]
fn ten_thousand_tasks_share_three_permits() {
    let executor = Executor::new();
    let config = SemaphoreConfig { permits: 3, waiters: WAITERS, ..Default::default() };
    let semaphore = Arc::new(Semaphore::with_config(config).unwrap());
    let (inside, worked) = (Arc::new(AtomicUsize::new(0)), Arc::new(AtomicU64::new(0)));
    let most = Arc::new(Most::default());
    for task in 0..TASKS {
        let (semaphore, timer) = (semaphore.clone(), executor.timer());
        let (inside, worked) = (inside.clone(), worked.clone());
        let most = most.clone();
        executor.spawn(async move {
            let mut chance = Chance(task * 0x9e37_79b9 + 1);
            for _ in 0..3 {
                let permit = match chance.below(4) {
                    0 => {
                        // It comes, and leaves at once, or a little later.
                        let mut acquire = Box::pin(semaphore.acquire());
                        let came = poll_once(acquire.as_mut(), Waker::noop());
                        if chance.below(2) == 0 {
                            yield_once().await;
                        }
                        drop(acquire);
                        drop(came);
                        continue;
                    }
                    1 => {
                        let time = Duration::from_micros(chance.below(20_000));
                        let acquire = most.count(semaphore.acquire());
                        match timer.within(time, acquire).await {
                            Some(permit) => permit.unwrap(),
                            None => continue,
                        }
                    }
                    _ => most.count(semaphore.acquire()).await.unwrap(),
                };
                assert!(inside.fetch_add(1, Ordering::SeqCst) < 3);
                if chance.below(4) == 0 {
                    yield_once().await;
                }
                worked.fetch_add(1, Ordering::SeqCst);
                inside.fetch_sub(1, Ordering::SeqCst);
                drop(permit);
            }
        });
    }
    let polls = executor.run(THREADS);
    assert_eq!(semaphore.available_permits(), 3);
    // A future asks to be polled again where it was served, and never else.
    assert!(most.wakes() <= 1, "{} wakes of one future", most.wakes());
    // It is polled when it comes and when it was served; and when a deadline of its task comes, of which
    // a task has three.
    assert!(most.polls() <= 2 + 3, "{} polls of one future", most.polls());
    assert!(worked.load(Ordering::SeqCst) >= TASKS);
    // Each of the three rounds of a task has at most: a poll where it comes, one where it is served,
    // one at its deadline, and one where it let others run.
    assert!(polls <= TASKS * 3 * 4, "{polls} polls");
}

#[test]
fn ten_thousand_tasks_add_behind_a_mutex() {
    let executor = Executor::new();
    let config = MutexConfig { waiters: WAITERS, ..Default::default() };
    let sum = Arc::new(Mutex::with_config(0u64, config).unwrap());
    let most = Arc::new(Most::default());
    for task in 0..TASKS {
        let (sum, most) = (sum.clone(), most.clone());
        executor.spawn(async move {
            let mut guard = most.count(sum.clone().lock_owned()).await.unwrap();
            let before = *guard;
            if task % 16 == 0 {
                // Others run while it is locked, on whatever thread.
                yield_once().await;
            }
            *guard = before + 1;
        });
    }
    executor.run(THREADS);
    assert_eq!(*sum.try_lock().unwrap(), TASKS);
    // No deadline is there: a poll where it comes, and one where it was served.
    assert!(most.polls() <= 2 && most.wakes() <= 1);
}

#[test]
fn ten_thousand_tasks_share_values() {
    let executor = Executor::new();
    let config = PoolConfig { waiters: WAITERS, ..Default::default() };
    let pool = Arc::new(Pool::with_config([0u64; 5], config).unwrap());
    let given_up = Arc::new(AtomicU64::new(0));
    for task in 0..TASKS {
        let (pool, given_up) = (pool.clone(), given_up.clone());
        executor.spawn(async move {
            if task % 3 == 0 {
                let mut take = pin!(pool.take());
                if poll_once(take.as_mut(), Waker::noop()).is_none() {
                    yield_once().await;
                }
                given_up.fetch_add(1, Ordering::SeqCst);
                return;
            }
            let mut item = pool.take().await.unwrap();
            let before = *item;
            yield_once().await;
            *item = before + 1;
        });
    }
    executor.run(THREADS);
    let mut pool = Arc::into_inner(pool).unwrap();
    let added: u64 = pool.iter_mut().map(|value| *value).sum();
    assert_eq!(added + given_up.load(Ordering::SeqCst), TASKS);
}

#[test]
fn ten_thousand_tasks_wait_for_a_latch() {
    let executor = Executor::new();
    let config = LatchConfig { count: 4, waiters: WAITERS, ..Default::default() };
    let latch = Arc::new(Latch::with_config(config).unwrap());
    let passed = Arc::new(AtomicU64::new(0));
    let most = Arc::new(Most::default());
    for task in 0..TASKS {
        let (latch, passed, most) = (latch.clone(), passed.clone(), most.clone());
        let is_counter = task % (TASKS / 4) == TASKS / 4 - 1;
        executor.spawn(async move {
            if is_counter {
                yield_once().await;
                latch.count_down();
            }
            if task % 5 == 0 {
                let _ = poll_once(pin!(latch.wait()).as_mut(), Waker::noop());
                return;
            }
            most.count(latch.wait()).await.unwrap();
            passed.fetch_add(1, Ordering::SeqCst);
        });
    }
    executor.run(THREADS);
    assert_eq!(passed.load(Ordering::SeqCst), TASKS - TASKS / 5);
    // No deadline is there: a poll where it comes, and one where it was served.
    assert!(most.polls() <= 2 && most.wakes() <= 1);
}

#[test]
fn tasks_meet_round_after_round() {
    const PARTIES: u64 = 32;
    const ROUNDS: u64 = 200;
    let executor = Executor::new();
    let barrier = Arc::new(Barrier::new(PARTIES as usize));
    let (arrived, leaders) = (Arc::new(AtomicU64::new(0)), Arc::new(AtomicU64::new(0)));
    for _ in 0..PARTIES {
        let (barrier, arrived, leaders) = (barrier.clone(), arrived.clone(), leaders.clone());
        executor.spawn(async move {
            for round in 1..=ROUNDS {
                arrived.fetch_add(1, Ordering::SeqCst);
                let through = barrier.wait().await;
                assert!(arrived.load(Ordering::SeqCst) >= PARTIES * round);
                leaders.fetch_add(through.is_leader().into(), Ordering::SeqCst);
            }
        });
    }
    executor.run(THREADS);
    assert_eq!(leaders.load(Ordering::SeqCst), ROUNDS);
}
