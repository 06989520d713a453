//! How a round of what people use is timed: the rounds, the threads and the rows are those of `crates/cqs_bench_calls`.

use std::future::Future;
use std::pin::pin;
use std::sync::Arc;
use std::task::{Context, Poll, Wake, Waker};
use std::thread::{self, Thread};
use std::time::Instant;

/// A run has so many rounds, unless a word says otherwise.
const ROUNDS: u64 = 500_000;

/// The most rounds in which an object of its own is made for each.
const MOST_OBJECTS: u64 = 1 << 14;

/// A sleep takes so many times as long as a few looks; so many times fewer rounds are made.
const SLEEP: u64 = 16;

/// After so many looks at a wait another thread may run.
const LOOKS: u64 = 64;

/// So many waiters stand in line where rounds are made behind them.
pub const LIVE: usize = 1000;

/// For so many letters there is room.
pub const ROOM: usize = 64;

/// A letter: who sends it, its number among the letters of its sender, and what it says.
pub type Letter = (u32, u64, u64);

/// How a caller waits.
#[derive(Clone, Copy, PartialEq)]
pub enum Waiting {
    /// It looks, and lets another thread run after each 64 looks.
    Looks,
    /// It sleeps.
    Sleeps,
}

/// What is asked for: `PEER [ROUNDS [RUNS]]`.
pub struct Bench {
    rounds: u64,
    runs: u32,
}

impl Bench {
    pub fn from_words() -> Bench {
        let mut words = std::env::args().skip(1);
        let rounds = words.next().and_then(|text| text.parse().ok()).unwrap_or(ROUNDS);
        let runs = words.next().and_then(|text| text.parse().ok()).unwrap_or(5);
        Bench { rounds, runs }
    }

    /// One of so many rounds and runs.
    pub fn of(rounds: u64, runs: u32) -> Bench {
        Bench { rounds, runs }
    }

    /// Prints a row of rounds that one thread makes. `make` has them made, and clocks them.
    pub fn alone(&self, peer: &str, word: &str, make: impl Fn(u64) -> u64) {
        self.row(peer, word, 1, self.rounds, make);
    }

    /// The same of so many times fewer rounds.
    pub fn alone_fewer(&self, peer: &str, word: &str, fewer: u64, make: impl Fn(u64) -> u64) {
        self.row(peer, word, 1, (self.rounds / fewer).max(1), make);
    }

    /// Prints a row of rounds that threads share, each with as many.
    pub fn shared(&self, peer: &str, word: &str, threads: u64, waiting: Waiting, round: impl Fn(&mut u64) + Sync) {
        let count = match waiting {
            Waiting::Looks => self.rounds,
            Waiting::Sleeps => self.rounds / SLEEP,
        };
        self.row(peer, word, threads, count, |count| {
            clock(|| {
                thread::scope(|scope| {
                    for _ in 0..threads {
                        scope.spawn(|| {
                            let mut word = 1;
                            for _ in 0..count / threads {
                                round(&mut word);
                            }
                            assert!(word != 0);
                        });
                    }
                })
            })
        });
    }

    /// Prints a row of rounds that four threads make together, each on an object of its own, which was made before.
    pub fn together<T: Sync>(&self, peer: &str, word: &str, object: impl Fn() -> T, round: impl Fn(&T) + Sync) {
        self.row(peer, word, 4, self.rounds.min(MOST_OBJECTS), |count| {
            let objects: Vec<T> = (0..count).map(|_| object()).collect();
            clock(|| {
                thread::scope(|scope| {
                    for _ in 0..4 {
                        scope.spawn(|| objects.iter().for_each(&round));
                    }
                })
            })
        });
    }

    /// Prints a row of letters that so many threads send, each as many, to another that receives them. `open` makes a channel, `send` sends a
    /// letter by it, and `receive` waits for one.
    pub fn letters<S: Clone + Send, R: Send>(
        &self,
        peer: &str,
        senders: u32,
        waiting: Waiting,
        open: impl Fn() -> (S, R),
        send: impl Fn(&S, Letter) + Sync,
        receive: impl Fn(&mut R) -> Letter + Sync,
    ) {
        let rounds = match waiting {
            Waiting::Looks => self.rounds,
            Waiting::Sleeps => self.rounds / SLEEP,
        };
        let each = rounds / u64::from(senders);
        let count = each * u64::from(senders);
        self.row(peer, "mailbox", u64::from(senders) + 1, count, |count| {
            let (sender, mut receiver) = open();
            clock(|| {
                thread::scope(|scope| {
                    for name in 0..senders {
                        let sender = sender.clone();
                        let send = &send;
                        scope.spawn(move || (0..each).for_each(|number| send(&sender, (name, number, 1))));
                    }
                    let words: u64 = (0..count).map(|_| receive(&mut receiver).2).sum();
                    assert!(words == count);
                })
            })
        });
    }

    /// Prints a row of so many rounds.
    pub fn row(&self, peer: &str, word: &str, threads: u64, count: u64, run: impl Fn(u64) -> u64) {
        let mut each: Vec<f64> = (0..self.runs).map(|_| run(count) as f64 / count as f64).collect();
        each.sort_by(f64::total_cmp);
        let (best, median, worst) = (each[0], each[each.len() / 2], each[each.len() - 1]);
        println!("{peer}\t{word}\t{threads}\t{best:.2}\t{median:.2}\t{worst:.2}\t{count}");
    }
}

/// The nanoseconds that it takes.
pub fn clock(make: impl FnOnce()) -> u64 {
    let start = Instant::now();
    make();
    start.elapsed().as_nanos() as u64
}

/// 100 steps of xorshift, which never come to 0.
pub fn work(word: &mut u64) {
    for _ in 0..100 {
        *word ^= *word << 13;
        *word ^= *word >> 7;
        *word ^= *word << 17;
    }
}

/// Tries until it comes, and lets another thread run after each 64 looks.
pub fn look_until<T>(mut come: impl FnMut() -> Option<T>) -> T {
    for round in 0u64.. {
        if let Some(output) = come() {
            return output;
        }
        if round % LOOKS == LOOKS - 1 {
            thread::yield_now();
        }
    }
    unreachable!()
}

/// Polls a future once, as somebody who will look again himself.
pub fn look<F: Future>(future: std::pin::Pin<&mut F>) -> Option<F::Output> {
    match future.poll(&mut Context::from_waker(Waker::noop())) {
        Poll::Ready(output) => Some(output),
        Poll::Pending => None,
    }
}

struct Sleeper(Thread);

impl Wake for Sleeper {
    fn wake(self: Arc<Self>) {
        self.0.unpark();
    }
}

/// Waits for a future by looks, or asleep until it wakes this thread.
pub fn wait<F: Future>(waiting: Waiting, future: F) -> F::Output {
    let mut future = pin!(future);
    if waiting == Waiting::Looks {
        return look_until(|| look(future.as_mut()));
    }
    // A waker is made where the future isn't ready at once, as an executor has one at hand.
    thread_local! { static WAKER: Waker = Waker::from(Arc::new(Sleeper(thread::current()))); }
    WAKER.with(|waker| loop {
        if let Poll::Ready(output) = future.as_mut().poll(&mut Context::from_waker(waker)) {
            return output;
        }
        thread::park();
    })
}
