//! The pool: rows of calls worked out by hand, calls by chance, each compared with a plain pool,
//! and threads that share its values.

use cqs::pass::{Item, Pool, PoolConfig, PoolPass, TakeEnd, TakeWait, Taken};
use cqs::{MakeError, WaitError};
use std::collections::VecDeque;
use std::sync::atomic::{AtomicBool, AtomicU64, Ordering};
use std::thread;

fn pool(size: u64, limit: u64) -> Pool<u64> {
    let values = (0..size).map(|value| 100 * value).collect();
    Pool::new(values, PoolConfig { limit, ..PoolConfig::default() }).expect("memory")
}

fn now<T>(pass: &mut PoolPass<T>) -> Item<'_, T> {
    match pass.take() {
        Ok(Taken::Now(item)) => item,
        _ => panic!("a value is free"),
    }
}

fn later<T>(pass: &mut PoolPass<T>) -> TakeWait<'_, T> {
    match pass.take() {
        Ok(Taken::Later(wait)) => wait,
        _ => panic!("no value is free"),
    }
}

#[test]
fn in_order() {
    let pool = pool(2, 20);
    let mut passes: Vec<PoolPass<u64>> = (0..4).map(|_| pool.pass().unwrap()).collect();
    let [one, two, three, four] = &mut passes[..] else { unreachable!() };
    let mut first = now(one);
    let second = now(two);
    assert_eq!((first.number(), *first), (0, 0));
    assert_eq!((second.number(), *second), (1, 100));
    let third = later(three);
    let fourth = later(four);
    assert_eq!((third.number(), fourth.number()), (2, 3));
    *first += 7;
    let one = first.put();
    let fourth = fourth.poll().expect_err("the first of the line is served first");
    let third = third.poll().expect("it was the first of the line");
    assert_eq!((third.number(), *third), (0, 7));
    second.put();
    let fourth = fourth.poll().expect("it was the next");
    assert_eq!(fourth.number(), 1);
    // What is put back first is taken first.
    drop(fourth);
    drop(third);
    assert_eq!(now(one).number(), 1);
}

#[test]
fn gives_up_and_comes_late() {
    let pool = pool(1, 20);
    let mut passes: Vec<PoolPass<u64>> = (0..3).map(|_| pool.pass().unwrap()).collect();
    let [one, two, three] = &mut passes[..] else { unreachable!() };
    let held = now(one);
    assert!(matches!(later(two).cancel(), TakeEnd::Gone(_)));
    let wait = later(three);
    let one = held.put();
    let TakeEnd::TooLate(mut late) = wait.cancel() else { panic!("the value had come") };
    *late = 5;
    // A wait that is dropped too late puts its value back.
    let wait = later(two);
    drop(late);
    drop(wait);
    assert_eq!(*now(one), 5);
}

#[test]
fn seventy_cancelled_waits() {
    let pool = pool(1, 100);
    let (mut one, mut two) = (pool.pass().unwrap(), pool.pass().unwrap());
    let held = now(&mut one);
    for number in 1..=70 {
        let wait = later(&mut two);
        assert_eq!(wait.number(), number);
        drop(wait);
    }
    let wait = later(&mut two);
    held.put();
    assert!(wait.poll().is_ok());
}

#[test]
fn worn() {
    let pool = pool(2, 1);
    let mut one = pool.pass().unwrap();
    drop(now(&mut one));
    assert_eq!(one.take().err(), Some(WaitError::Worn));
}

#[test]
fn sizes_out_of_range() {
    let sizes = |size, passes, limit| match Pool::new(vec![(); size], PoolConfig { passes, limit })
    {
        Err(MakeError::BadConfig(number)) => number.name(),
        Err(MakeError::Memory) => "memory",
        Ok(_) => "",
    };
    assert_eq!(sizes(0, 1, 1), "values");
    assert_eq!(sizes(4_097, 1, 1), "values");
    assert_eq!(sizes(1, 0, 1), "passes");
    assert_eq!(sizes(1, 32, 1), "passes");
    assert_eq!(sizes(1, 1, 0), "limit");
    assert_eq!(sizes(1, 1, 68_719_476_737), "limit");
    assert_eq!(sizes(1, 1, 68_719_476_736), "");
    assert_eq!(sizes(4_096, 31, 1), "");
}

#[test]
fn all_the_values_are_there() {
    let pool = pool(31, 1_000);
    let mut passes: Vec<PoolPass<u64>> = (0..31).map(|_| pool.pass().unwrap()).collect();
    let items: Vec<Item<u64>> = passes.iter_mut().map(now).collect();
    assert!(items.iter().enumerate().all(|(i, item)| item.number() as usize == i));
    drop(items);
    assert_eq!(now(&mut passes[30]).number(), 0);
}

#[test]
fn what_was_forgotten_is_ended() {
    let pool = pool(1, 20);
    let mut one = pool.pass().unwrap();
    // By the next take of its pass,
    std::mem::forget(now(&mut one));
    let held = now(&mut one);
    // or with its pass.
    let mut two = pool.pass().unwrap();
    std::mem::forget(later(&mut two));
    drop(two);
    std::mem::forget(held);
    let mut three = pool.pass().unwrap();
    let wait = later(&mut three);
    drop(one);
    assert!(wait.poll().is_ok());
}

/// A generator of numbers by chance (xorshift).
struct Chance(u64);

impl Chance {
    fn below(&mut self, bound: u64) -> usize {
        self.0 ^= self.0 << 13;
        self.0 ^= self.0 >> 7;
        self.0 ^= self.0 << 17;
        (self.0 % bound) as usize
    }
}

/// The plain pool: the free elements and the callers who wait, each in order, and which element a
/// caller was served.
struct Model {
    free: VecDeque<u32>,
    line: VecDeque<usize>,
    served: Vec<Option<u32>>,
    next: u64,
}

impl Model {
    fn take(&mut self, caller: usize) -> Option<u32> {
        self.next += 1;
        let first = self.free.pop_front();
        if first.is_none() {
            self.line.push_back(caller);
        }
        first
    }

    fn put(&mut self, element: u32) {
        match self.line.pop_front() {
            Some(first) => self.served[first] = Some(element),
            None => self.free.push_back(element),
        }
    }
}

enum Caller {
    Idle(&'static mut PoolPass<u64>),
    Has(Item<'static, u64>),
    Waits(TakeWait<'static, u64>),
}

fn run(seed: u64, size: u32, callers: usize, calls: usize) {
    let pool = pool(size.into(), 1_048_576);
    let mut values: Vec<u64> = (0..u64::from(size)).map(|value| 100 * value).collect();
    let mut chance = Chance(seed);
    let mut model = Model {
        free: (0..size).collect(),
        line: VecDeque::new(),
        served: vec![None; callers],
        next: 0,
    };
    let owners: Vec<_> =
        (0..callers).map(|_| Box::into_raw(Box::new(pool.pass().unwrap()))).collect();
    // SAFETY: each is lent once, and freed below, after all that it was lent to has ended.
    let mut states: Vec<Option<Caller>> =
        owners.iter().map(|&owner| Some(Caller::Idle(unsafe { &mut *owner }))).collect();
    for call in 0..calls {
        let at = chance.below(callers as u64);
        let place = format!("seed {seed}, call {call}, caller {at}");
        let has = |item: Item<'static, u64>, element: Option<u32>, values: &[u64]| {
            assert_eq!(Some(item.number()), element, "{place}");
            assert_eq!(*item, values[item.number() as usize], "{place}");
            Caller::Has(item)
        };
        states[at] = Some(match states[at].take().unwrap() {
            Caller::Idle(pass) => match pass.take().unwrap() {
                Taken::Now(item) => has(item, model.take(at), &values),
                Taken::Later(wait) => {
                    assert_eq!(wait.number(), model.next, "{place}");
                    assert_eq!(model.take(at), None, "{place}");
                    Caller::Waits(wait)
                }
            },
            Caller::Has(mut item) => {
                *item = call as u64;
                values[item.number() as usize] = call as u64;
                model.put(item.number());
                Caller::Idle(item.put())
            }
            Caller::Waits(wait) if chance.below(3) == 0 => {
                let served = model.served[at].take();
                match wait.cancel() {
                    TakeEnd::Gone(pass) => {
                        assert_eq!(served, None, "{place}");
                        model.line.retain(|waiter| *waiter != at);
                        Caller::Idle(pass)
                    }
                    TakeEnd::TooLate(item) => has(item, served, &values),
                }
            }
            Caller::Waits(wait) => match wait.poll() {
                Ok(item) => has(item, model.served[at].take(), &values),
                Err(wait) => {
                    assert_eq!(model.served[at], None, "{place}");
                    Caller::Waits(wait)
                }
            },
        });
    }
    drop(states);
    for owner in owners {
        // SAFETY: it came from a box, and nobody has it any more.
        drop(unsafe { Box::from_raw(owner) });
    }
}

#[test]
fn as_the_plain_pool() {
    for seed in 1..=200 {
        run(seed, 1 + (seed % 7) as u32, 2 + (seed % 29) as usize, 2_000);
    }
}

/// A value that one thread at a time may have.
#[derive(Default)]
struct Alone {
    taken: AtomicBool,
    times: u64,
}

#[test]
fn six_threads_share_three_values() {
    const THREADS: u64 = 6;
    const ROUNDS: u64 = 2_000;
    let values = (0..3).map(|_| Alone::default()).collect();
    let pool = Pool::new(values, PoolConfig::default()).unwrap();
    let given_up = AtomicU64::new(0);
    thread::scope(|scope| {
        for thread in 0..THREADS {
            let (pool, given_up) = (&pool, &given_up);
            scope.spawn(move || {
                let mut pass = pool.pass().unwrap();
                for round in 0..ROUNDS {
                    let mut item = match pass.take().unwrap() {
                        Taken::Now(item) => item,
                        Taken::Later(wait) if (round + thread) % 3 == 0 => match wait.cancel() {
                            TakeEnd::Gone(_) => {
                                given_up.fetch_add(1, Ordering::Relaxed);
                                continue;
                            }
                            TakeEnd::TooLate(item) => item,
                        },
                        Taken::Later(mut wait) => loop {
                            match wait.poll() {
                                Ok(item) => break item,
                                Err(again) => wait = again,
                            }
                            thread::yield_now();
                        },
                    };
                    assert!(!item.taken.swap(true, Ordering::SeqCst));
                    item.times += 1;
                    assert!(item.taken.swap(false, Ordering::SeqCst));
                }
            });
        }
    });
    let mut passes: Vec<PoolPass<Alone>> = (0..3).map(|_| pool.pass().unwrap()).collect();
    let times: u64 = passes.iter_mut().map(now).map(|item| item.times).sum();
    assert_eq!(times + given_up.into_inner(), THREADS * ROUNDS);
}
