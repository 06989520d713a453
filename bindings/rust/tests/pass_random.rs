//! Calls by chance, each compared with a plain semaphore: a number of free permits and a line.

use cqs::pass::{
    Acquired, Cancelled, Permit, Semaphore, SemaphoreConfig, SemaphorePass, TryError, Wait,
};
use std::collections::VecDeque;

/// The plain semaphore. Callers are numbers.
struct Model {
    free: usize,
    line: VecDeque<usize>,
    served: Vec<bool>,
    next: u64,
}

impl Model {
    fn acquire(&mut self, caller: usize) -> Option<u64> {
        if self.free > 0 {
            self.free -= 1;
            return None;
        }
        self.line.push_back(caller);
        self.next += 1;
        Some(self.next - 1)
    }

    fn release(&mut self) {
        match self.line.pop_front() {
            Some(first) => self.served[first] = true,
            None => self.free += 1,
        }
    }

    fn state(&self) -> i64 {
        self.free as i64 - self.line.len() as i64
    }
}

enum Caller {
    Idle(&'static mut SemaphorePass),
    Holds(Permit<'static>),
    Waits(Wait<'static>),
}

/// A generator of numbers by chance (xorshift).
struct Chance(u64);

impl Chance {
    fn below(&mut self, bound: u64) -> usize {
        self.0 ^= self.0 << 13;
        self.0 ^= self.0 >> 7;
        self.0 ^= self.0 << 17;
        (self.0 % bound) as usize
    }
}

fn run(seed: u64, permits: u32, callers: usize, calls: usize) {
    let limit = 1_048_576;
    let semaphore =
        Semaphore::new(SemaphoreConfig { permits, limit, ..SemaphoreConfig::default() }).unwrap();
    let mut chance = Chance(seed);
    let mut model = Model {
        free: permits as usize,
        line: VecDeque::new(),
        served: vec![false; callers],
        next: 0,
    };
    let owners: Vec<_> =
        (0..callers).map(|_| Box::into_raw(Box::new(semaphore.pass().unwrap()))).collect();
    // SAFETY: each is lent once, and freed below, after all that it was lent to has ended.
    let mut states: Vec<Option<Caller>> =
        owners.iter().map(|&owner| Some(Caller::Idle(unsafe { &mut *owner }))).collect();
    for call in 0..calls {
        let at = chance.below(callers as u64);
        let place = format!("seed {seed}, call {call}, caller {at}");
        states[at] = Some(match states[at].take().unwrap() {
            Caller::Idle(pass) => match chance.below(4) {
                0 => {
                    assert_eq!(pass.state(), model.state(), "{place}");
                    Caller::Idle(pass)
                }
                1 if model.free > 0 => {
                    let permit = pass.try_acquire().expect(&place);
                    model.free -= 1;
                    Caller::Holds(permit)
                }
                1 => {
                    let at: *mut SemaphorePass = pass;
                    assert_eq!(pass.try_acquire().err(), Some(TryError::NoneFree), "{place}");
                    // SAFETY: the try has ended, and the pass lives for ever.
                    Caller::Idle(unsafe { &mut *at })
                }
                _ => match (pass.acquire().unwrap(), model.acquire(at)) {
                    (Acquired::Now(permit), None) => Caller::Holds(permit),
                    (Acquired::Later(wait), Some(number)) => {
                        assert_eq!(wait.number(), number, "{place}");
                        Caller::Waits(wait)
                    }
                    _ => panic!("{place}: the two differ"),
                },
            },
            Caller::Holds(permit) => {
                model.release();
                Caller::Idle(permit.release())
            }
            Caller::Waits(wait) if chance.below(3) == 0 => {
                let served = std::mem::take(&mut model.served[at]);
                match wait.cancel() {
                    Cancelled::Gone(pass) => {
                        assert!(!served, "{place}");
                        model.line.retain(|waiter| *waiter != at);
                        Caller::Idle(pass)
                    }
                    Cancelled::TooLate(permit) => {
                        assert!(served, "{place}");
                        Caller::Holds(permit)
                    }
                }
            }
            Caller::Waits(wait) => match wait.poll() {
                Ok(permit) => {
                    assert!(std::mem::take(&mut model.served[at]), "{place}");
                    Caller::Holds(permit)
                }
                Err(wait) => {
                    assert!(!model.served[at], "{place}");
                    Caller::Waits(wait)
                }
            },
        });
    }
    drop(states);
    for owner in owners {
        // SAFETY: it came from a box, and nobody has it any more.
        drop(unsafe { Box::from_raw(owner) });
    }
}

#[test]
fn as_the_plain_semaphore() {
    for seed in 1..=200 {
        run(seed, 1 + (seed % 5) as u32, 2 + (seed % 29) as usize, 2_000);
    }
}
