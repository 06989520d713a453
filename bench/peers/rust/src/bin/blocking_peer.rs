//! What one writes with a mutex and a condition variable, of the standard library and of parking_lot: a semaphore, a pool, a latch and a
//! barrier; their mutexes themselves; and the bounded channel of the standard library. None of these keeps a line: who comes first has it.

use peers::{clock, look_until, work, Bench, Letter, Waiting, ROOM};
use std::sync::mpsc::{sync_channel, Receiver, SyncSender};

/// The same rounds over two crates, whose locks are alike but for the answer of `lock`.
macro_rules! rounds {
    ($name:ident, $peer:literal, $mutex:ty, $condvar:ty, $lock:expr, $wait:expr) => {
        mod $name {
            use super::*;

            type Mutex<T> = $mutex;

            /// A number that threads wait for.
            struct Number {
                value: Mutex<u64>,
                changed: $condvar,
            }

            impl Number {
                fn of(value: u64) -> Number {
                    Number { value: <Mutex<u64>>::new(value), changed: <$condvar>::new() }
                }

                /// Takes one where there is one, and else sleeps until then.
                fn acquire(&self) {
                    let mut value = $lock(&self.value);
                    while *value == 0 {
                        value = $wait(&self.changed, value);
                    }
                    *value -= 1;
                }

                fn release(&self) {
                    *$lock(&self.value) += 1;
                    self.changed.notify_one();
                }

                /// Counts down, and sleeps until all have.
                fn pass(&self) {
                    let mut value = $lock(&self.value);
                    *value -= 1;
                    if *value == 0 {
                        self.changed.notify_all();
                    }
                    while *value > 0 {
                        value = $wait(&self.changed, value);
                    }
                }
            }

            pub fn tell(bench: &Bench) {
                bench.alone($peer, "free", |count| {
                    let semaphore = Number::of(1);
                    clock(|| {
                        for _ in 0..count {
                            semaphore.acquire();
                            semaphore.release();
                        }
                    })
                });
                bench.alone($peer, "mutex-free", |count| {
                    let mutex = <Mutex<u64>>::new(0);
                    clock(|| {
                        for _ in 0..count {
                            drop(std::hint::black_box($lock(&mutex)));
                        }
                    })
                });
                bench.alone($peer, "pool-free", |count| {
                    let items = <Mutex<Vec<u64>>>::new(vec![0; 4]);
                    let changed = <$condvar>::new();
                    clock(|| {
                        for _ in 0..count {
                            let item = $lock(&items).pop();
                            $lock(&items).extend(std::hint::black_box(item));
                            changed.notify_one();
                        }
                    })
                });
                for threads in [1, 2, 4] {
                    let semaphore = Number::of(1);
                    bench.shared($peer, "contended", threads, Waiting::Sleeps, |word| {
                        semaphore.acquire();
                        work(word);
                        semaphore.release();
                    });
                }
                for threads in [4, 8] {
                    let items = <Mutex<Vec<u64>>>::new(vec![0; 4]);
                    let changed = <$condvar>::new();
                    bench.shared($peer, "pool", threads, Waiting::Sleeps, |word| {
                        let mut free = $lock(&items);
                        let item = loop {
                            match free.pop() {
                                Some(item) => break item,
                                None => free = $wait(&changed, free),
                            }
                        };
                        drop(free);
                        work(word);
                        $lock(&items).push(item);
                        changed.notify_one();
                    });
                }
                bench.together($peer, "latch", || Number::of(4), Number::pass);
            }
        }
    };
}

rounds!(
    of_std,
    "std",
    std::sync::Mutex<T>,
    std::sync::Condvar,
    |mutex| std::sync::Mutex::lock(mutex).unwrap(),
    |changed: &std::sync::Condvar, guard| changed.wait(guard).unwrap()
);

#[cfg(feature = "parking_lot")]
rounds!(
    of_parking_lot,
    "parking_lot",
    parking_lot::Mutex<T>,
    parking_lot::Condvar,
    parking_lot::Mutex::lock,
    |changed: &parking_lot::Condvar, mut guard| {
        changed.wait(&mut guard);
        guard
    }
);

fn main() {
    let bench = Bench::from_words();
    of_std::tell(&bench);
    bench.together("std", "barrier", || std::sync::Barrier::new(4), |barrier| {
        barrier.wait();
    });
    for threads in [1, 2, 4] {
        let mutex = std::sync::Mutex::new(());
        bench.shared("std-mutex", "contended", threads, Waiting::Sleeps, |word| {
            let guard = mutex.lock().unwrap();
            work(word);
            drop(guard);
        });
    }
    bench.alone("std", "mailbox-free", |count| {
        let (sender, receiver) = sync_channel::<Letter>(ROOM);
        clock(|| {
            for number in 0..count {
                sender.try_send((0, number, 1)).unwrap();
                assert!(receiver.try_recv().unwrap().2 == 1);
            }
        })
    });
    for senders in [1, 4] {
        let open = || sync_channel::<Letter>(ROOM);
        let send_so = |sender: &SyncSender<Letter>, letter| look_until(|| sender.try_send(letter).ok());
        let receive_so = |receiver: &mut Receiver<Letter>| look_until(|| receiver.try_recv().ok());
        bench.letters("std-poll", senders, Waiting::Looks, open, send_so, receive_so);
        let send = |sender: &SyncSender<Letter>, letter| sender.send(letter).unwrap();
        bench.letters("std", senders, Waiting::Sleeps, open, send, |receiver| receiver.recv().unwrap());
    }
    #[cfg(feature = "parking_lot")]
    of_parking_lot::tell(&bench);
}
