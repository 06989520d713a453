//! Threads that sleep: more of them than there are passes, with deadlines and panics.

mod common;

use common::Chance;
use cqs::{Barrier, CountDown, Latch, Mutex, Pool, Semaphore, TimeoutError};
use std::panic::{AssertUnwindSafe, catch_unwind};
use std::sync::Arc;
use std::sync::atomic::{AtomicU64, AtomicUsize, Ordering};
use std::thread;
use std::time::{Duration, Instant};

const THREADS: u64 = 64;

#[test]
fn never_more_than_its_permits() {
    for permits in [1, 3, 8] {
        let semaphore = Semaphore::new(permits);
        let inside = AtomicUsize::new(0);
        let (worked, late) = (AtomicU64::new(0), AtomicU64::new(0));
        thread::scope(|scope| {
            for thread in 0..THREADS {
                let (semaphore, inside, worked, late) = (&semaphore, &inside, &worked, &late);
                scope.spawn(move || {
                    let mut chance = Chance(thread + 1);
                    for _ in 0..200 {
                        let permit = match chance.below(4) {
                            0 => match semaphore.try_acquire() {
                                Ok(permit) => permit,
                                Err(_) => continue,
                            },
                            1 => {
                                let time = Duration::from_micros(chance.below(300));
                                match semaphore.acquire_timeout(time) {
                                    Ok(permit) => permit,
                                    Err(error) => {
                                        assert_eq!(error, TimeoutError::TimedOut);
                                        late.fetch_add(1, Ordering::SeqCst);
                                        continue;
                                    }
                                }
                            }
                            _ => semaphore.acquire_blocking().unwrap(),
                        };
                        assert!(inside.fetch_add(1, Ordering::SeqCst) < permits);
                        if chance.below(8) == 0 {
                            thread::yield_now();
                        }
                        worked.fetch_add(1, Ordering::SeqCst);
                        inside.fetch_sub(1, Ordering::SeqCst);
                        drop(permit);
                    }
                });
            }
        });
        assert_eq!(semaphore.available_permits(), permits);
        assert!(worked.load(Ordering::SeqCst) >= THREADS * 50);
    }
}

#[test]
fn a_mutex_excludes() {
    let mutex = Mutex::new(0u64);
    thread::scope(|scope| {
        for _ in 0..THREADS {
            scope.spawn(|| {
                for _ in 0..500 {
                    *mutex.lock_blocking().unwrap() += 1;
                }
            });
        }
    });
    assert_eq!(mutex.into_inner(), THREADS * 500);
}

#[test]
fn a_value_is_one_takers_alone() {
    let pool = Pool::new([0u64; 3]);
    thread::scope(|scope| {
        for thread in 0..THREADS {
            let pool = &pool;
            scope.spawn(move || {
                let mut chance = Chance(thread + 1);
                for _ in 0..300 {
                    let mut item = match chance.below(3) {
                        0 => loop {
                            let time = Duration::from_micros(chance.below(300));
                            match pool.take_timeout(time) {
                                Ok(item) => break item,
                                Err(error) => assert_eq!(error, TimeoutError::TimedOut),
                            }
                        },
                        1 => match pool.try_take() {
                            Ok(item) => item,
                            Err(_) => pool.take_blocking().unwrap(),
                        },
                        _ => pool.take_blocking().unwrap(),
                    };
                    *item += 1;
                }
            });
        }
    });
    assert_eq!(pool.into_values().into_iter().sum::<u64>(), THREADS * 300);
}

#[test]
fn a_latch_opens_for_all() {
    for round in 0..50 {
        let latch = Latch::new(3);
        let passed = AtomicU64::new(0);
        thread::scope(|scope| {
            for thread in 0..8 {
                let (latch, passed) = (&latch, &passed);
                scope.spawn(move || {
                    let time = Duration::from_micros(round * 10);
                    if thread % 2 == 0 || latch.wait_timeout(time).is_err() {
                        latch.wait_blocking().unwrap();
                    }
                    passed.fetch_add(1, Ordering::SeqCst);
                });
            }
            let last = (0..3).filter(|_| latch.count_down() == CountDown::Last).count();
            assert_eq!(last, 1);
        });
        assert_eq!(passed.into_inner(), 8);
        assert!(latch.is_open());
        assert_eq!(latch.count_down(), CountDown::Already);
    }
}

#[test]
fn parties_meet_though_some_withdraw() {
    const PARTIES: u64 = 8;
    const ROUNDS: u64 = 100;
    let barrier = Barrier::new(PARTIES as usize);
    let (arrived, leaders) = (AtomicU64::new(0), AtomicU64::new(0));
    thread::scope(|scope| {
        for thread in 0..PARTIES {
            let (barrier, arrived, leaders) = (&barrier, &arrived, &leaders);
            scope.spawn(move || {
                let mut chance = Chance(thread + 1);
                for round in 1..=ROUNDS {
                    arrived.fetch_add(1, Ordering::SeqCst);
                    let through = loop {
                        if chance.below(4) == 0 {
                            break barrier.wait_blocking();
                        }
                        let time = Duration::from_micros(chance.below(60));
                        if let Ok(through) = barrier.wait_timeout(time) {
                            break through;
                        }
                    };
                    assert!(arrived.load(Ordering::SeqCst) >= PARTIES * round);
                    leaders.fetch_add(through.is_leader().into(), Ordering::SeqCst);
                }
            });
        }
    });
    assert_eq!(leaders.into_inner(), ROUNDS);
}

#[test]
fn a_barrier_is_never_worn() {
    let barrier = Barrier::new(3);
    thread::scope(|scope| {
        let waits = scope.spawn(|| barrier.wait_blocking());
        for _ in 0..3_000 {
            assert!(barrier.wait_timeout(Duration::ZERO).is_err());
        }
        let more = scope.spawn(|| barrier.wait_blocking());
        while !format!("{barrier:?}").contains("waiting: 2") {
            thread::yield_now();
        }
        assert!(barrier.wait_blocking().is_leader());
        assert!(!waits.join().unwrap().is_leader());
        assert!(!more.join().unwrap().is_leader());
    });
}

#[test]
fn a_panic_holds_nothing() {
    let semaphore = Semaphore::new(1);
    let mutex = Mutex::new(0);
    let pool = Pool::new([0]);
    let panics = |call: &dyn Fn()| assert!(catch_unwind(AssertUnwindSafe(call)).is_err());
    panics(&|| {
        let _permit = semaphore.acquire_blocking();
        panic!("with a permit");
    });
    panics(&|| {
        *mutex.lock_blocking().unwrap() = 7;
        let _guard = mutex.lock_blocking();
        panic!("with the mutex");
    });
    panics(&|| {
        let _item = pool.take_blocking();
        panic!("with a value");
    });
    assert_eq!(semaphore.available_permits(), 1);
    assert_eq!(*mutex.try_lock().unwrap(), 7);
    assert!(pool.try_take().is_ok());
}

#[test]
fn a_deadline_is_kept() {
    let semaphore = Semaphore::new(1);
    let held = semaphore.try_acquire().unwrap();
    let begin = Instant::now();
    let late = semaphore.acquire_timeout(Duration::from_millis(30));
    assert_eq!(late.unwrap_err(), TimeoutError::TimedOut);
    assert!(begin.elapsed() >= Duration::from_millis(30));
    // A time without an end is no deadline.
    thread::scope(|scope| {
        let waits = scope.spawn(|| semaphore.acquire_timeout(Duration::MAX).is_ok());
        thread::sleep(Duration::from_millis(5));
        drop(held);
        assert!(waits.join().unwrap());
    });
}

#[test]
fn a_sleeper_takes_no_token_of_its_thread() {
    let semaphore = Arc::new(Semaphore::new(1));
    let held = semaphore.clone().acquire_owned_blocking().unwrap();
    let waits = thread::spawn(move || {
        drop(semaphore.acquire_blocking().unwrap());
        // The token that came while it slept is still there.
        thread::park();
    });
    thread::sleep(Duration::from_millis(5));
    waits.thread().unpark();
    thread::sleep(Duration::from_millis(5));
    held.release();
    waits.join().unwrap();
}
