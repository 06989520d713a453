//! The synchronous semaphore: rows of calls worked out by hand, calls by chance, each compared with
//! a plain semaphore, and threads that break numbers and find theirs broken.
//!
//! A number is broken where its release comes after its caller has drawn it, or is about to, and
//! before that caller is in its cell. From one thread each call has ended before the next begins, so
//! there is no row in which a number is broken and found so, nor one in which a caller is about to
//! leave: only the threads come to these, and how often is up to them.

mod common;

use common::Chance;
use cqs::pass::{
    SyncAcquired, SyncCancelled, SyncPermit, SyncReleased, SyncSemaphore, SyncSemaphoreConfig,
    SyncSemaphorePass, SyncWait, TryError,
};
use cqs::{MakeError, WaitError};
use std::collections::VecDeque;
use std::sync::atomic::{AtomicI64, Ordering};
use std::thread;

fn semaphore(permits: u32, looks: u32, limit: u64) -> SyncSemaphore {
    let config = SyncSemaphoreConfig { permits, looks, limit, ..SyncSemaphoreConfig::default() };
    SyncSemaphore::new(config).expect("memory")
}

fn now(pass: &mut SyncSemaphorePass) -> SyncPermit<'_> {
    match pass.acquire() {
        Ok(SyncAcquired::Now(permit)) => permit,
        _ => panic!("a permit was free"),
    }
}

fn later(pass: &mut SyncSemaphorePass) -> SyncWait<'_> {
    match pass.acquire() {
        Ok(SyncAcquired::Later(wait)) => wait,
        _ => panic!("no permit was free"),
    }
}

fn sent(released: SyncReleased<'_>) -> (u64, &mut SyncSemaphorePass) {
    match released {
        SyncReleased::Sent(number, pass) => (number, pass),
        other => panic!("its caller was there: {other:?}"),
    }
}

fn freed(released: SyncReleased<'_>) -> &mut SyncSemaphorePass {
    match released {
        SyncReleased::Freed(pass) => pass,
        other => panic!("nobody waited: {other:?}"),
    }
}

#[test]
fn a_permit_goes_over() {
    for looks in [0, 1, 1024] {
        let semaphore = semaphore(1, looks, 10);
        let (mut one, mut two) = (semaphore.pass().unwrap(), semaphore.pass().unwrap());
        let held = now(&mut one);
        let wait = later(&mut two);
        assert_eq!(wait.number(), 0);
        let wait = wait.poll().expect_err("the permit is held");
        let (number, one) = sent(held.release());
        assert_eq!(number, 0);
        assert_eq!(one.try_acquire().err(), Some(TryError::NoneFree));
        let two = freed(wait.poll().expect("it came").release());
        assert_eq!(two.state(), 1);
        assert!(one.try_acquire().is_ok());
    }
}

#[test]
fn gives_up_and_comes_late() {
    let semaphore = semaphore(1, 1, 10);
    let mut passes: Vec<_> = (0..3).map(|_| semaphore.pass().unwrap()).collect();
    let [one, two, three] = &mut passes[..] else { unreachable!() };
    let held = now(one);
    assert!(matches!(later(two).cancel(), SyncCancelled::Gone(_)));
    let wait = later(three);
    let (number, one) = sent(held.release());
    assert_eq!(number, 1);
    let SyncCancelled::TooLate(late) = wait.cancel() else { panic!("the permit had come") };
    freed(late.release());
    assert_eq!(one.state(), 1);
}

#[test]
fn served_in_order() {
    let semaphore = semaphore(1, 1, 10);
    let mut passes: Vec<_> = (0..3).map(|_| semaphore.pass().unwrap()).collect();
    let [one, two, three] = &mut passes[..] else { unreachable!() };
    let held = now(one);
    let (second, third) = (later(two), later(three));
    assert_eq!(sent(held.release()).0, 0);
    let third = third.poll().expect_err("the first of the line is served first");
    let held = second.poll().expect("it was the first of the line");
    assert_eq!(sent(held.release()).0, 1);
    freed(third.poll().expect("it is its turn").release());
}

#[test]
fn seventy_cancelled_waits() {
    let semaphore = semaphore(1, 1, 100);
    let (mut one, mut two) = (semaphore.pass().unwrap(), semaphore.pass().unwrap());
    let held = now(&mut one);
    for number in 0..70 {
        let wait = later(&mut two);
        assert_eq!(wait.number(), number);
        drop(wait);
    }
    let wait = later(&mut two);
    assert_eq!(sent(held.release()).0, 70);
    freed(wait.poll().expect("the release passed over the seventy").release());
    assert_eq!(one.state(), 1);
}

#[test]
fn worn() {
    let semaphore = semaphore(1, 1, 1);
    let (mut one, mut two) = (semaphore.pass().unwrap(), semaphore.pass().unwrap());
    let held = now(&mut one);
    drop(later(&mut two));
    assert_eq!(two.acquire().err(), Some(WaitError::Worn));
    freed(held.release());
    assert_eq!(two.acquire().err(), Some(WaitError::Worn));
    assert!(two.try_acquire().is_ok());
}

#[test]
fn sizes_out_of_range() {
    let sizes = |permits, looks, passes, limit| {
        let config = SyncSemaphoreConfig { permits, looks, passes, limit };
        match SyncSemaphore::new(config) {
            Err(MakeError::BadConfig(number)) => number.name(),
            Err(MakeError::Memory) => "memory",
            Ok(_) => "",
        }
    };
    assert_eq!(sizes(0, 1, 1, 1), "permits");
    assert_eq!(sizes(1_048_577, 1, 1, 1), "permits");
    assert_eq!(sizes(1, 1_025, 1, 1), "looks");
    assert_eq!(sizes(1, 1, 0, 1), "passes");
    assert_eq!(sizes(1, 1, 32, 1), "passes");
    assert_eq!(sizes(1, 1, 1, 0), "limit");
    assert_eq!(sizes(1, 1, 1, 68_719_476_737), "limit");
    assert_eq!(sizes(1, 0, 1, 68_719_476_736), "");
    assert_eq!(sizes(1_048_576, 1_024, 31, 1), "");
}

#[test]
fn what_is_dropped_is_given_back() {
    let semaphore = semaphore(1, 1, 10);
    let (mut one, mut two) = (semaphore.pass().unwrap(), semaphore.pass().unwrap());
    let held = now(&mut one);
    let wait = later(&mut two);
    drop(held);
    // The permit had come to a wait that is dropped.
    drop(wait);
    assert_eq!(one.state(), 1);
}

#[test]
fn what_was_forgotten_is_ended() {
    let semaphore = semaphore(1, 1, 10);
    let mut one = semaphore.pass().unwrap();
    std::mem::forget(now(&mut one));
    assert_eq!(one.state(), 1);
    let mut two = semaphore.pass().unwrap();
    let held = now(&mut one);
    std::mem::forget(later(&mut two));
    drop(two);
    let mut three = semaphore.pass().unwrap();
    let wait = later(&mut three);
    std::mem::forget(held);
    drop(one);
    freed(wait.poll().expect("it came").release());
}

/// The plain semaphore. Callers are numbers.
struct Model {
    free: usize,
    line: VecDeque<(usize, u64)>,
    served: Vec<bool>,
    next: u64,
}

impl Model {
    fn acquire(&mut self, caller: usize) -> Option<u64> {
        if self.free > 0 {
            self.free -= 1;
            return None;
        }
        let number = self.next;
        self.line.push_back((caller, number));
        self.next += 1;
        Some(number)
    }

    /// To which number the permit goes, if somebody waits.
    fn release(&mut self) -> Option<u64> {
        let Some((first, number)) = self.line.pop_front() else {
            self.free += 1;
            return None;
        };
        self.served[first] = true;
        Some(number)
    }

    fn state(&self) -> i64 {
        self.free as i64 - self.line.len() as i64
    }
}

enum Caller {
    Idle(&'static mut SyncSemaphorePass),
    Holds(SyncPermit<'static>),
    Waits(SyncWait<'static>),
}

fn idle(
    pass: &'static mut SyncSemaphorePass,
    at: usize,
    chance: u64,
    model: &mut Model,
    place: &str,
) -> Caller {
    match chance {
        0 => {
            assert_eq!(pass.state(), model.state(), "{place}");
            Caller::Idle(pass)
        }
        1 if model.free > 0 => {
            model.free -= 1;
            Caller::Holds(pass.try_acquire().expect(place))
        }
        1 => {
            let at: *mut SyncSemaphorePass = pass;
            assert_eq!(pass.try_acquire().err(), Some(TryError::NoneFree), "{place}");
            // SAFETY: the try has ended, and the pass lives as long as the run.
            Caller::Idle(unsafe { &mut *at })
        }
        _ => match (pass.acquire().unwrap(), model.acquire(at)) {
            (SyncAcquired::Now(permit), None) => Caller::Holds(permit),
            (SyncAcquired::Later(wait), Some(number)) => {
                assert_eq!(wait.number(), number, "{place}");
                Caller::Waits(wait)
            }
            (acquired, expected) => panic!("{place}: {acquired:?}, and not {expected:?}"),
        },
    }
}

fn give(permit: SyncPermit<'static>, model: &mut Model, place: &str) -> Caller {
    match (permit.release(), model.release()) {
        (SyncReleased::Freed(pass), None) => Caller::Idle(pass),
        (SyncReleased::Sent(number, pass), Some(expected)) => {
            assert_eq!(number, expected, "{place}");
            Caller::Idle(pass)
        }
        (released, expected) => panic!("{place}: {released:?}, and not {expected:?}"),
    }
}

fn end(wait: SyncWait<'static>, at: usize, model: &mut Model, gives_up: bool) -> Caller {
    let served = std::mem::take(&mut model.served[at]);
    if gives_up {
        return match wait.cancel() {
            SyncCancelled::Gone(pass) => {
                assert!(!served);
                model.line.retain(|(waiter, _)| *waiter != at);
                Caller::Idle(pass)
            }
            SyncCancelled::TooLate(permit) => {
                assert!(served);
                Caller::Holds(permit)
            }
        };
    }
    match wait.poll() {
        Ok(permit) => {
            assert!(served);
            Caller::Holds(permit)
        }
        Err(wait) => {
            assert!(!served);
            Caller::Waits(wait)
        }
    }
}

fn run(seed: u64, permits: u32, looks: u32, callers: usize, calls: usize) {
    let semaphore = semaphore(permits, looks, 1_048_576);
    let mut chance = Chance(seed);
    let mut model = Model {
        free: permits as usize,
        line: VecDeque::new(),
        served: vec![false; callers],
        next: 0,
    };
    let owners: Vec<_> =
        (0..callers).map(|_| Box::into_raw(Box::new(semaphore.pass().unwrap()))).collect();
    // SAFETY: each is lent once, and freed below, after all that it was lent to has ended.
    let mut states: Vec<Option<Caller>> =
        owners.iter().map(|&owner| Some(Caller::Idle(unsafe { &mut *owner }))).collect();
    for call in 0..calls {
        let at = chance.below(callers as u64) as usize;
        let place = format!("seed {seed}, call {call}, caller {at}");
        states[at] = Some(match states[at].take().unwrap() {
            Caller::Idle(pass) => idle(pass, at, chance.below(4), &mut model, &place),
            Caller::Holds(permit) => give(permit, &mut model, &place),
            Caller::Waits(wait) => end(wait, at, &mut model, chance.below(3) == 0),
        });
    }
    drop(states);
    for owner in owners {
        // SAFETY: it came from a box, and nobody has it any more.
        drop(unsafe { Box::from_raw(owner) });
    }
    assert_eq!(semaphore.pass().unwrap().state(), i64::from(permits));
}

#[test]
fn as_the_plain_semaphore() {
    for seed in 1..=200 {
        let looks = (seed % 3) as u32;
        run(seed, 1 + (seed % 5) as u32, looks, 2 + (seed % 29) as usize, 2_000);
    }
}

/// The numbers that a thread broke, and those of its own that it found broken.
#[derive(Default)]
struct Broken {
    by_it: Vec<u64>,
    of_it: Vec<u64>,
}

/// Acquires, again where it was late. Some of those who wait give up: then there is no permit.
fn get<'a>(
    mut pass: &'a mut SyncSemaphorePass,
    gives_up: bool,
    broken: &mut Broken,
) -> Result<SyncPermit<'a>, &'a mut SyncSemaphorePass> {
    loop {
        match pass.acquire().unwrap() {
            SyncAcquired::Now(permit) => return Ok(permit),
            SyncAcquired::Broke(number, again) => {
                broken.of_it.push(number);
                pass = again;
            }
            SyncAcquired::Later(wait) if gives_up => {
                return match wait.cancel() {
                    SyncCancelled::Gone(pass) => Err(pass),
                    SyncCancelled::TooLate(permit) => Ok(permit),
                };
            }
            SyncAcquired::Later(mut wait) => loop {
                match wait.poll() {
                    Ok(permit) => return Ok(permit),
                    Err(again) => wait = again,
                }
                thread::yield_now();
            },
        }
    }
}

/// Gives it until it is gone.
fn give_away(permit: SyncPermit<'_>, broken: &mut Broken) {
    let mut released = permit.release();
    loop {
        released = match released {
            SyncReleased::Freed(_) | SyncReleased::Sent(..) | SyncReleased::Void(..) => return,
            SyncReleased::Broke(number, permit) => {
                broken.by_it.push(number);
                permit.release()
            }
            SyncReleased::Handling(_, owed) | SyncReleased::Under(owed) => {
                thread::yield_now();
                owed.finish()
            }
            SyncReleased::Crowded(permit) => permit.release(),
        };
    }
}

fn break_and_be_broken(permits: u32, looks: u32, threads: u64, rounds: u64) {
    let semaphore = semaphore(permits, looks, 1 << 36);
    let (inside, most) = (AtomicI64::new(0), AtomicI64::new(0));
    let broken: Vec<Broken> = thread::scope(|scope| {
        let workers: Vec<_> = (0..threads)
            .map(|thread| {
                let (semaphore, inside, most) = (&semaphore, &inside, &most);
                scope.spawn(move || {
                    let mut pass = semaphore.pass().unwrap();
                    let mut broken = Broken::default();
                    for round in 0..rounds {
                        let gives_up = (round + thread) % 3 == 0;
                        let Ok(permit) = get(&mut pass, gives_up, &mut broken) else { continue };
                        most.fetch_max(inside.fetch_add(1, Ordering::SeqCst) + 1, Ordering::SeqCst);
                        thread::yield_now();
                        inside.fetch_sub(1, Ordering::SeqCst);
                        give_away(permit, &mut broken);
                    }
                    broken
                })
            })
            .collect();
        workers.into_iter().map(|worker| worker.join().unwrap()).collect()
    });
    assert!(most.into_inner() <= i64::from(permits));
    assert_eq!(semaphore.pass().unwrap().state(), i64::from(permits));
    // Each number is broken once at most, and its caller, and nobody else, finds it so.
    let sorted = |numbers: fn(&Broken) -> &Vec<u64>| {
        let mut all: Vec<u64> = broken.iter().flat_map(|it| numbers(it).iter().copied()).collect();
        all.sort_unstable();
        all
    };
    let by = sorted(|it| &it.by_it);
    assert_eq!(by, sorted(|it| &it.of_it));
    assert!(by.windows(2).all(|two| two[0] < two[1]));
}

#[test]
fn threads_break_and_are_broken() {
    for looks in [0, 1, 64] {
        break_and_be_broken(1, looks, 4, 1_000);
        break_and_be_broken(3, looks, 6, 1_000);
    }
}

/// Nothing is asked of a release: what is dropped is given until it is gone.
#[test]
fn threads_drop_what_they_have() {
    let semaphore = semaphore(2, 0, 1 << 36);
    thread::scope(|scope| {
        for thread in 0..4 {
            let semaphore = &semaphore;
            scope.spawn(move || {
                for round in 0..1_000 {
                    let mut pass = semaphore.pass().unwrap();
                    match pass.acquire().unwrap() {
                        SyncAcquired::Now(permit) if round % 2 == 0 => {
                            thread::yield_now();
                            // Whatever comes of it is dropped, and with it what came back or is owed.
                            drop(permit.release());
                        }
                        SyncAcquired::Now(permit) if round % 5 == 0 => std::mem::forget(permit),
                        SyncAcquired::Later(wait) if (round + thread) % 3 == 0 => {
                            std::mem::forget(wait);
                        }
                        acquired => drop(acquired),
                    }
                    let permit = pass.acquire_yielding().unwrap();
                    thread::yield_now();
                    drop(permit);
                }
            });
        }
    });
    assert_eq!(semaphore.pass().unwrap().state(), 2);
}
