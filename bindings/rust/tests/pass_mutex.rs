//! The mutex: rows of calls worked out by hand, calls by chance, each compared with a plain mutex,
//! and threads that add.

use cqs::WaitError;
use cqs::pass::{LockEnd, LockWait, Locked, Mutex, MutexConfig, MutexGuard, MutexPass, TryError};
use std::collections::VecDeque;
use std::thread;

fn mutex(word: u64, limit: u64) -> Mutex<u64> {
    Mutex::new(word, MutexConfig { limit, ..MutexConfig::default() }).expect("memory")
}

fn now(pass: &mut MutexPass<u64>) -> MutexGuard<'_, u64> {
    match pass.lock() {
        Ok(Locked::Now(guard)) => guard,
        _ => panic!("the mutex is free"),
    }
}

fn later(pass: &mut MutexPass<u64>) -> LockWait<'_, u64> {
    match pass.lock() {
        Ok(Locked::Later(wait)) => wait,
        _ => panic!("the mutex is held"),
    }
}

#[test]
fn the_word_goes_along() {
    let mutex = mutex(5, 10);
    let (mut one, mut two) = (mutex.pass().unwrap(), mutex.pass().unwrap());
    let mut held = now(&mut one);
    assert_eq!(*held, 5);
    *held = u64::MAX;
    let wait = later(&mut two).poll().expect_err("the mutex is held");
    let one = held.unlock();
    let mut held = wait.poll().expect("it came");
    assert_eq!(*held, u64::MAX);
    *held = 7;
    assert_eq!(one.try_lock().err(), Some(TryError::NoneFree));
    assert_eq!(one.state(), 0);
    drop(held);
    assert_eq!(one.state(), 1);
    assert_eq!(*one.try_lock().expect("it is free"), 7);
}

#[test]
fn gives_up_and_comes_late() {
    let mutex = mutex(1, 10);
    let mut passes: Vec<MutexPass<u64>> = (0..3).map(|_| mutex.pass().unwrap()).collect();
    let [one, two, three] = &mut passes[..] else { unreachable!() };
    let held = now(one);
    assert!(matches!(later(two).cancel(), LockEnd::Gone(_)));
    let wait = later(three);
    drop(held);
    let LockEnd::TooLate(mut late) = wait.cancel() else { panic!("the mutex had come") };
    *late += 1;
    drop(late);
    assert_eq!(*now(two), 2);
}

#[test]
fn what_was_forgotten_is_ended_with_its_pass() {
    let mutex = mutex(1, 10);
    let mut one = mutex.pass().unwrap();
    *now(&mut one) = 2;
    std::mem::forget(now(&mut one));
    let mut two = mutex.pass().unwrap();
    let wait = later(&mut two);
    drop(one);
    assert_eq!(*wait.poll().expect("it came"), 2);
}

#[test]
fn what_was_forgotten_is_ended_by_the_next_call() {
    let mutex = mutex(1, 10);
    let (mut one, mut two) = (mutex.pass().unwrap(), mutex.pass().unwrap());
    std::mem::forget(now(&mut one));
    *now(&mut one) = 2;
    let held = now(&mut one);
    std::mem::forget(later(&mut two));
    let wait = later(&mut two);
    drop(held);
    assert_eq!(*wait.poll().expect("it came"), 2);
    std::mem::forget(now(&mut two));
    assert_eq!(two.state(), 1);
}

#[test]
fn worn() {
    let mutex = mutex(0, 1);
    let (mut one, mut two) = (mutex.pass().unwrap(), mutex.pass().unwrap());
    let held = now(&mut one);
    drop(later(&mut two));
    assert_eq!(two.lock().err(), Some(WaitError::Worn));
    drop(held);
    assert!(two.try_lock().is_ok());
}

/// A generator of numbers by chance (xorshift).
struct Chance(u64);

impl Chance {
    fn below(&mut self, bound: u64) -> usize {
        self.0 ^= self.0 << 13;
        self.0 ^= self.0 >> 7;
        self.0 ^= self.0 << 17;
        (self.0 % bound) as usize
    }
}

/// The plain mutex.
struct Model {
    word: u64,
    holder: Option<usize>,
    line: VecDeque<usize>,
    next: u64,
}

impl Model {
    fn unlock(&mut self, word: u64) {
        self.word = word;
        self.holder = self.line.pop_front();
    }

    fn state(&self) -> i64 {
        i64::from(self.holder.is_none()) - self.line.len() as i64
    }
}

enum Caller {
    Idle(&'static mut MutexPass<u64>),
    Holds(MutexGuard<'static, u64>),
    Waits(LockWait<'static, u64>),
}

fn lock(pass: &'static mut MutexPass<u64>, at: usize, model: &mut Model, place: &str) -> Caller {
    match pass.lock().unwrap() {
        Locked::Now(guard) => {
            assert_eq!(model.holder, None, "{place}");
            assert_eq!(*guard, model.word, "{place}");
            model.holder = Some(at);
            Caller::Holds(guard)
        }
        Locked::Later(wait) => {
            assert!(model.holder.is_some(), "{place}");
            assert_eq!(wait.number(), model.next, "{place}");
            model.next += 1;
            model.line.push_back(at);
            Caller::Waits(wait)
        }
    }
}

fn end(wait: LockWait<'static, u64>, at: usize, model: &mut Model, gives_up: bool) -> Caller {
    let served = model.holder == Some(at);
    if gives_up {
        return match wait.cancel() {
            LockEnd::Gone(pass) => {
                assert!(!served);
                model.line.retain(|waiter| *waiter != at);
                Caller::Idle(pass)
            }
            LockEnd::TooLate(guard) => {
                assert!(served && *guard == model.word);
                Caller::Holds(guard)
            }
        };
    }
    match wait.poll() {
        Ok(guard) => {
            assert!(served && *guard == model.word);
            Caller::Holds(guard)
        }
        Err(wait) => {
            assert!(!served);
            Caller::Waits(wait)
        }
    }
}

fn run(seed: u64, callers: usize, calls: usize) {
    let mut chance = Chance(seed);
    let mutex = mutex(seed, 1_048_576);
    let mut model = Model { word: seed, holder: None, line: VecDeque::new(), next: 0 };
    let owners: Vec<_> =
        (0..callers).map(|_| Box::into_raw(Box::new(mutex.pass().unwrap()))).collect();
    // SAFETY: each is lent once, and freed below, after all that it was lent to has ended.
    let mut states: Vec<Option<Caller>> =
        owners.iter().map(|&owner| Some(Caller::Idle(unsafe { &mut *owner }))).collect();
    for call in 0..calls {
        let at = chance.below(callers as u64);
        let place = format!("seed {seed}, call {call}, caller {at}");
        states[at] = Some(match states[at].take().unwrap() {
            Caller::Idle(pass) if chance.below(4) == 0 => {
                assert_eq!(pass.state(), model.state(), "{place}");
                Caller::Idle(pass)
            }
            Caller::Idle(pass) => lock(pass, at, &mut model, &place),
            Caller::Holds(mut guard) => {
                *guard = call as u64;
                model.unlock(call as u64);
                Caller::Idle(guard.unlock())
            }
            Caller::Waits(wait) => end(wait, at, &mut model, chance.below(3) == 0),
        });
    }
    drop(states);
    for owner in owners {
        // SAFETY: it came from a box, and nobody has it any more.
        drop(unsafe { Box::from_raw(owner) });
    }
}

#[test]
fn as_the_plain_mutex() {
    for seed in 1..=200 {
        run(seed, 2 + (seed % 29) as usize, 2_000);
    }
}

#[test]
fn four_threads_add() {
    let mutex = mutex(0, 1_048_576);
    thread::scope(|scope| {
        for _ in 0..4 {
            scope.spawn(|| {
                let mut pass = mutex.pass().unwrap();
                for _ in 0..5_000 {
                    *pass.lock_yielding().unwrap() += 1;
                }
            });
        }
    });
    assert_eq!(*mutex.pass().unwrap().try_lock().expect("it is free"), 20_000);
}
