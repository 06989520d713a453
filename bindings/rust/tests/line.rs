//! The line of the calls without passes, call by call on one thread: who is served is the first in
//! line, that one is woken, and nobody else is.

mod common;

use common::{Chance, Wakes, poll_once};
use cqs::{
    Item, Mutex, MutexConfig, Permit, Pool, PoolConfig, Semaphore, SemaphoreConfig, WaitError,
};
use cqs::{NoneFree, TimeoutError};
use std::collections::VecDeque;
use std::future::Future;
use std::pin::Pin;
use std::sync::Arc;
use std::task::Waker;
use std::time::Duration;

type Taking<'a, T> = Pin<Box<dyn Future<Output = Result<T, WaitError>> + 'a>>;

enum Caller<'a, T> {
    Away,
    Waits(Taking<'a, T>),
    Has { _held: T },
}

/// Calls by chance, each compared with a plain number of what is free and a plain line.
fn as_a_plain_line<'a, T>(
    seed: u64,
    mut free: usize,
    callers: usize,
    take: impl Fn() -> Taking<'a, T>,
    try_take: impl Fn() -> Result<T, NoneFree>,
) {
    let mut chance = Chance(seed);
    let wakers: Vec<(Arc<Wakes>, Waker)> = (0..callers).map(|_| Wakes::new()).collect();
    let mut states: Vec<Caller<T>> = (0..callers).map(|_| Caller::Away).collect();
    let mut line = VecDeque::new();
    let mut served = vec![false; callers];
    for call in 0..2_000 {
        let at = chance.below(callers as u64) as usize;
        let place = format!("seed {seed}, call {call}, caller {at}");
        let waker = &wakers[at].1;
        // Who is to be woken by this call.
        let mut woken = None;
        let mut give =
            |free: &mut usize, line: &mut VecDeque<usize>, served: &mut [bool]| match line
                .pop_front()
            {
                Some(first) => {
                    served[first] = true;
                    woken = Some(first);
                }
                None => *free += 1,
            };
        states[at] = match std::mem::replace(&mut states[at], Caller::Away) {
            Caller::Away if chance.below(4) == 0 => match try_take() {
                Ok(held) => {
                    assert!(free > 0, "{place}");
                    free -= 1;
                    Caller::Has { _held: held }
                }
                Err(NoneFree) => {
                    assert_eq!(free, 0, "{place}");
                    Caller::Away
                }
            },
            Caller::Away => {
                let mut taking = take();
                match poll_once(taking.as_mut(), waker) {
                    Some(held) => {
                        assert!(free > 0, "{place}");
                        free -= 1;
                        Caller::Has { _held: held.unwrap() }
                    }
                    None => {
                        assert_eq!(free, 0, "{place}");
                        line.push_back(at);
                        Caller::Waits(taking)
                    }
                }
            }
            Caller::Waits(taking) if chance.below(3) == 0 => {
                drop(taking);
                if std::mem::take(&mut served[at]) {
                    // What had come to it goes on.
                    give(&mut free, &mut line, &mut served);
                } else {
                    line.retain(|&waiter| waiter != at);
                }
                Caller::Away
            }
            Caller::Waits(mut taking) => match poll_once(taking.as_mut(), waker) {
                Some(held) => {
                    assert!(std::mem::take(&mut served[at]), "{place}");
                    Caller::Has { _held: held.unwrap() }
                }
                None => {
                    assert!(!served[at], "{place}");
                    Caller::Waits(taking)
                }
            },
            Caller::Has { _held } => {
                drop(_held);
                give(&mut free, &mut line, &mut served);
                Caller::Away
            }
        };
        for (caller, (wakes, _)) in wakers.iter().enumerate() {
            assert_eq!(
                wakes.take(),
                u64::from(woken == Some(caller)),
                "{place}: {caller} is woken"
            );
        }
    }
}

#[test]
fn permits_go_to_the_first_in_line() {
    for seed in 1..=100 {
        let permits = 1 + seed as usize % 5;
        let semaphore = Semaphore::new(permits);
        let take = || -> Taking<Permit> { Box::pin(semaphore.acquire()) };
        as_a_plain_line(seed, permits, 2 + seed as usize % 40, take, || semaphore.try_acquire());
        assert_eq!(semaphore.available_permits(), permits);
    }
}

#[test]
fn values_go_to_the_first_in_line() {
    for seed in 1..=100 {
        let values = 1 + seed as usize % 5;
        let pool = Pool::new(0..values);
        let take = || -> Taking<Item<usize>> { Box::pin(pool.take()) };
        as_a_plain_line(seed, values, 2 + seed as usize % 40, take, || pool.try_take());
        let mut all = pool.into_values();
        all.sort();
        assert_eq!(all, Vec::from_iter(0..values));
    }
}

#[test]
fn the_mutex_goes_to_the_first_in_line() {
    for seed in 1..=100 {
        let mutex = Mutex::new(());
        let take = || -> Taking<_> { Box::pin(mutex.lock()) };
        as_a_plain_line(seed, 1, 2 + seed as usize % 40, take, || mutex.try_lock());
    }
}

#[test]
fn many_stand_in_a_long_line() {
    const WAITERS: usize = 20_000;
    let config = SemaphoreConfig { waiters: WAITERS, ..Default::default() };
    let semaphore = Semaphore::with_config(config).unwrap();
    let held = semaphore.try_acquire().unwrap();
    let wakers: Vec<(Arc<Wakes>, Waker)> = (0..WAITERS).map(|_| Wakes::new()).collect();
    let mut line: Vec<Option<Taking<Permit>>> = Vec::new();
    for (_, waker) in &wakers {
        let mut taking: Taking<Permit> = Box::pin(semaphore.acquire());
        assert!(poll_once(taking.as_mut(), waker).is_none());
        line.push(Some(taking));
    }
    // Every second one leaves.
    for taking in line.iter_mut().step_by(2) {
        *taking = None;
    }
    drop(held);
    for at in 0..WAITERS {
        let Some(mut taking) = line[at].take() else {
            assert_eq!(wakers[at].0.take(), 0);
            continue;
        };
        assert_eq!(wakers[at].0.take(), 1, "waiter {at} is woken in its turn");
        drop(poll_once(taking.as_mut(), &wakers[at].1).expect("it was served"));
    }
    assert_eq!(semaphore.available_permits(), 1);
}

#[test]
fn another_waker_is_the_one_that_is_woken() {
    let semaphore = Semaphore::new(1);
    let held = semaphore.try_acquire().unwrap();
    let mut taking = Box::pin(semaphore.acquire());
    let ((first, by_first), (second, by_second)) = (Wakes::new(), Wakes::new());
    assert!(poll_once(taking.as_mut(), &by_first).is_none());
    assert!(poll_once(taking.as_mut(), &by_second).is_none());
    drop(held);
    assert_eq!((first.take(), second.take()), (0, 1));
    assert!(poll_once(taking.as_mut(), &by_first).is_some());
}

#[test]
fn worn_is_said_and_what_is_free_can_be_had() {
    let semaphore =
        Semaphore::with_config(SemaphoreConfig { limit: 2, ..Default::default() }).unwrap();
    let short = Duration::from_millis(1);
    let held = semaphore.acquire_blocking().unwrap();
    for _ in 0..2 {
        assert_eq!(semaphore.acquire_timeout(short).unwrap_err(), TimeoutError::TimedOut);
    }
    assert_eq!(semaphore.acquire_blocking().unwrap_err(), WaitError::Worn);
    assert_eq!(semaphore.acquire_timeout(short).unwrap_err(), TimeoutError::Worn);
    drop(held);
    for _ in 0..10 {
        assert!(semaphore.acquire_blocking().is_ok());
        assert!(semaphore.try_acquire().is_ok());
    }
    assert_eq!(semaphore.available_permits(), 1);

    let pool = Pool::with_config(["a"], PoolConfig { limit: 2, ..Default::default() }).unwrap();
    let held = pool.take_blocking().unwrap();
    assert_eq!(pool.take_timeout(short).unwrap_err(), TimeoutError::TimedOut);
    assert_eq!(pool.take_blocking().unwrap_err(), WaitError::Worn);
    drop(held);
    for _ in 0..10 {
        assert!(pool.take_blocking().is_ok());
        assert!(pool.try_take().is_ok());
    }

    let mutex = Mutex::with_config(0, MutexConfig { limit: 1, ..Default::default() }).unwrap();
    let held = mutex.lock_blocking().unwrap();
    assert_eq!(mutex.lock_timeout(short).unwrap_err(), TimeoutError::TimedOut);
    assert_eq!(mutex.lock_blocking().unwrap_err(), WaitError::Worn);
    drop(held);
    *mutex.lock_blocking().unwrap() += 1;
    assert_eq!(mutex.into_inner(), 1);
}

#[test]
fn a_failing_try_draws_few_waits() {
    let pool = Pool::with_config(["a"], PoolConfig { limit: 8, ..Default::default() }).unwrap();
    let held = pool.try_take().unwrap();
    for _ in 0..100 {
        assert_eq!(pool.try_take().unwrap_err(), NoneFree);
    }
    drop(held);
    assert!(pool.try_take().is_ok());
}
