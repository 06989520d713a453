//! The Rust crate of `bindings/rust`, which calls the library through C, beside the semaphores and mutexes that people use: each makes
//! the same rounds in the same run.

use async_lock::Semaphore as AsyncLock;
use cqs::Semaphore as Ours;
use peers::{clock, look, wait, work, Bench, Waiting, LIVE};
use std::pin::{pin, Pin};
use std::sync::Arc;
use tokio::sync::Semaphore as Tokio;

/// So many tasks share eight permits.
const TASKS: u64 = 10_000;

/// Each of them takes a permit so often.
const ROUNDS: u64 = 4;

/// The same rounds over semaphores whose futures are alike, but for the permit in them.
macro_rules! rounds {
    ($name:ident, $peer:literal, $semaphore:ty, $got:expr) => {
        mod $name {
            use super::*;

            /// A free permit is taken and given back.
            fn free(count: u64) -> u64 {
                let semaphore = <$semaphore>::new(1);
                clock(|| {
                    for _ in 0..count {
                        assert!(look(pin!(semaphore.acquire())).is_some());
                    }
                })
            }

            /// The holder waits for the permit, gives it back, and is served.
            fn served(count: u64) -> u64 {
                let semaphore = <$semaphore>::new(1);
                let mut permit = look(pin!(semaphore.acquire())).and_then($got);
                clock(|| {
                    for _ in 0..count {
                        let mut wait = pin!(semaphore.acquire());
                        assert!(look(wait.as_mut()).is_none());
                        drop(permit.take());
                        permit = look(wait).and_then($got);
                        assert!(permit.is_some());
                    }
                })
            }

            /// A waiter comes, is told that it waits, and leaves, behind so many others.
            fn leave(count: u64, live: usize) -> u64 {
                let semaphore = <$semaphore>::new(1);
                let _permit = look(pin!(semaphore.acquire()));
                let mut line: Vec<Pin<Box<_>>> = (0..live).map(|_| Box::pin(semaphore.acquire())).collect();
                for wait in &mut line {
                    assert!(look(wait.as_mut()).is_none());
                }
                clock(|| {
                    for _ in 0..count {
                        assert!(look(pin!(semaphore.acquire())).is_none());
                    }
                })
            }

            /// Tasks of tokio's executor share eight permits; who has one lets other tasks run.
            fn tasks(count: u64) -> u64 {
                let executor = tokio::runtime::Builder::new_multi_thread().worker_threads(4).build().unwrap();
                let semaphore = Arc::new(<$semaphore>::new(8));
                clock(|| {
                    executor.block_on(async {
                        let tasks: Vec<_> = (0..TASKS)
                            .map(|_| {
                                let semaphore = semaphore.clone();
                                tokio::spawn(async move {
                                    let mut word = 1;
                                    for _ in 0..count / TASKS {
                                        let permit = semaphore.acquire().await;
                                        work(&mut word);
                                        tokio::task::yield_now().await;
                                        drop(permit);
                                    }
                                    assert!(word != 0);
                                })
                            })
                            .collect();
                        for task in tasks {
                            task.await.unwrap();
                        }
                    })
                })
            }

            pub fn tell(bench: &Bench, long: &Bench) {
                bench.alone($peer, "rust-free", free);
                bench.alone($peer, "rust-served", served);
                bench.alone($peer, "rust-leave", |count| leave(count, 0));
                bench.alone($peer, "rust-leave-behind", |count| leave(count, LIVE));
                let semaphore = <$semaphore>::new(1);
                long.shared($peer, "rust-contended", 4, Waiting::Sleeps, |word| {
                    let permit = wait(Waiting::Sleeps, semaphore.acquire());
                    work(word);
                    drop(permit);
                });
                bench.row($peer, "rust-tasks", 4, TASKS * ROUNDS, tasks);
            }
        }
    };
}

rounds!(of_ours, "ours", Ours, Result::ok);
rounds!(of_tokio, "tokio", Tokio, Result::ok);
rounds!(of_async_lock, "async-lock", AsyncLock, Some);

/// What a thread does that has no future: it calls, and sleeps in the call.
fn blocking(bench: &Bench, long: &Bench) {
    bench.alone("ours", "rust-mutex-free", |count| {
        let mutex = cqs::Mutex::new(0u64);
        clock(|| {
            for _ in 0..count {
                assert!(std::hint::black_box(mutex.lock_blocking()).is_ok());
            }
        })
    });
    bench.alone("tokio", "rust-mutex-free", |count| {
        let mutex = tokio::sync::Mutex::new(0u64);
        clock(|| {
            for _ in 0..count {
                drop(std::hint::black_box(look(pin!(mutex.lock()))));
            }
        })
    });
    bench.alone("std", "rust-mutex-free", |count| {
        let mutex = std::sync::Mutex::new(0u64);
        clock(|| {
            for _ in 0..count {
                drop(std::hint::black_box(mutex.lock()));
            }
        })
    });
    bench.alone("parking_lot", "rust-mutex-free", |count| {
        let mutex = parking_lot::Mutex::new(0u64);
        clock(|| {
            for _ in 0..count {
                drop(std::hint::black_box(mutex.lock()));
            }
        })
    });
    let mutex = cqs::Mutex::new(());
    long.shared("ours", "rust-mutex", 4, Waiting::Sleeps, |word| {
        let guard = mutex.lock_blocking();
        work(word);
        drop(guard);
    });
    let mutex = tokio::sync::Mutex::new(());
    long.shared("tokio", "rust-mutex", 4, Waiting::Sleeps, |word| {
        let guard = wait(Waiting::Sleeps, mutex.lock());
        work(word);
        drop(guard);
    });
    let mutex = parking_lot::Mutex::new(());
    long.shared("parking_lot-fair", "rust-mutex", 4, Waiting::Sleeps, |word| {
        let guard = mutex.lock();
        work(word);
        parking_lot::MutexGuard::unlock_fair(guard);
    });
    let mutex = std::sync::Mutex::new(());
    long.shared("std", "rust-mutex", 4, Waiting::Sleeps, |word| {
        let guard = mutex.lock();
        work(word);
        drop(guard);
    });
}

fn main() {
    let bench = Bench::from_words();
    // Threads that sleep take their time to start, and are told by the median.
    let long = Bench::of(200_000, 15);
    of_ours::tell(&bench, &long);
    of_tokio::tell(&bench, &long);
    of_async_lock::tell(&bench, &long);
    blocking(&bench, &long);
}
