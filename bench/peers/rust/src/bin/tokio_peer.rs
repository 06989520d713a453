//! tokio's semaphore, and what is made of it: a mutex, a pool, a barrier; and its bounded channel. It has no latch.

use peers::{clock, look, wait, work, Bench, Letter, Waiting, LIVE, ROOM};
use std::pin::{pin, Pin};
use std::sync::Mutex as StdMutex;
use tokio::sync::{mpsc, Barrier, Mutex, Semaphore};

/// A free permit is taken and given back.
fn free(count: u64) -> u64 {
    let semaphore = Semaphore::new(1);
    clock(|| {
        for _ in 0..count {
            assert!(look(pin!(semaphore.acquire())).is_some());
        }
    })
}

/// The holder waits for the permit, gives it back, and is served.
fn served(count: u64) -> u64 {
    let semaphore = Semaphore::new(1);
    let mut permit = semaphore.try_acquire().ok();
    clock(|| {
        for _ in 0..count {
            let mut wait = pin!(semaphore.acquire());
            assert!(look(wait.as_mut()).is_none());
            drop(permit.take());
            permit = look(wait).and_then(Result::ok);
            assert!(permit.is_some());
        }
    })
}

/// A waiter comes, is told that it waits, and leaves, behind so many others.
fn leave(count: u64, live: usize) -> u64 {
    let semaphore = Semaphore::new(1);
    let _permit = semaphore.try_acquire();
    let mut line: Vec<Pin<Box<_>>> = (0..live).map(|_| Box::pin(semaphore.acquire())).collect();
    for wait in &mut line {
        assert!(look(wait.as_mut()).is_none());
    }
    clock(|| {
        for _ in 0..count {
            assert!(look(pin!(semaphore.acquire())).is_none());
        }
    })
}

/// The holder waits for the permit past so many others who came and left, which isn't in the time; gives it back, and is served.
fn past(count: u64, left: u64) -> u64 {
    let semaphore = Semaphore::new(1);
    let mut permit = semaphore.try_acquire().ok();
    let mut nanoseconds = 0;
    for _ in 0..count {
        for _ in 0..left {
            assert!(look(pin!(semaphore.acquire())).is_none());
        }
        nanoseconds += clock(|| {
            let mut wait = pin!(semaphore.acquire());
            assert!(look(wait.as_mut()).is_none());
            drop(permit.take());
            permit = look(wait).and_then(Result::ok);
        });
        assert!(permit.is_some());
    }
    nanoseconds
}

/// So many waiters stand in line at once.
fn waiting(count: u64) -> u64 {
    let semaphore = Semaphore::new(1);
    let _permit = semaphore.try_acquire();
    let mut line = Vec::with_capacity(count as usize);
    clock(|| {
        for _ in 0..count {
            let mut wait = Box::pin(semaphore.acquire());
            assert!(look(wait.as_mut()).is_none());
            line.push(wait);
        }
    })
}

fn main() {
    let bench = Bench::from_words();
    if std::env::args().nth(3).as_deref() == Some("waiting") {
        bench.alone("tokio", "waiting", waiting);
        return;
    }
    bench.alone("tokio", "free", free);
    bench.alone("tokio", "served", served);
    for left in [320, 3200] {
        bench.alone_fewer("tokio", &format!("past-{left}"), left, |count| past(count, left));
    }
    bench.alone("tokio", "leave", |count| leave(count, 0));
    bench.alone("tokio", "leave-behind", |count| leave(count, LIVE));
    bench.alone("tokio", "mutex-free", |count| {
        let mutex = Mutex::new(0u64);
        clock(|| {
            for _ in 0..count {
                assert!(look(pin!(mutex.lock())).is_some());
            }
        })
    });
    bench.alone("tokio", "mailbox-free", |count| {
        let (sender, mut receiver) = mpsc::channel::<Letter>(ROOM);
        clock(|| {
            for number in 0..count {
                sender.try_send((0, number, 1)).unwrap();
                assert!(receiver.try_recv().unwrap().2 == 1);
            }
        })
    });
    for (peer, waiting) in [("tokio-poll", Waiting::Looks), ("tokio-park", Waiting::Sleeps)] {
        for threads in [1, 2, 4] {
            let semaphore = Semaphore::new(1);
            bench.shared(peer, "contended", threads, waiting, |word| {
                let permit = wait(waiting, semaphore.acquire());
                work(word);
                drop(permit);
            });
        }
        for threads in [4, 8] {
            let semaphore = Semaphore::new(4);
            let items = StdMutex::new(vec![0u64; 4]);
            bench.shared(peer, "pool", threads, waiting, |word| {
                let permit = wait(waiting, semaphore.acquire());
                let item = items.lock().unwrap().pop().unwrap();
                work(word);
                items.lock().unwrap().push(item);
                drop(permit);
            });
        }
        bench.together(peer, "barrier", || Barrier::new(4), |barrier| {
            wait(waiting, barrier.wait());
        });
        for senders in [1, 4] {
            let open = || mpsc::channel::<Letter>(ROOM);
            let send = |sender: &mpsc::Sender<Letter>, letter| wait(waiting, sender.send(letter)).unwrap();
            bench.letters(peer, senders, waiting, open, send, |receiver| wait(waiting, receiver.recv()).unwrap());
        }
    }
}
