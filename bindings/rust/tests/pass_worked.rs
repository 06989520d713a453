//! Rows of calls, worked out by hand.

use cqs::pass::{
    Acquired, Cancelled, Permit, Semaphore, SemaphoreConfig, SemaphorePass, TryError, Wait,
};
use cqs::{MakeError, WaitError};

fn semaphore(permits: u32, limit: u64) -> Semaphore {
    Semaphore::new(SemaphoreConfig { permits, limit, ..SemaphoreConfig::default() })
        .expect("memory")
}

fn now(pass: &mut SemaphorePass) -> Permit<'_> {
    match pass.acquire() {
        Ok(Acquired::Now(permit)) => permit,
        _ => panic!("a permit was free"),
    }
}

fn later(pass: &mut SemaphorePass) -> Wait<'_> {
    match pass.acquire() {
        Ok(Acquired::Later(wait)) => wait,
        _ => panic!("no permit was free"),
    }
}

#[test]
fn two_jobs_one_permit() {
    let semaphore = semaphore(1, 10);
    let (mut one, mut two) = (semaphore.pass().unwrap(), semaphore.pass().unwrap());
    let held = now(&mut one);
    let wait = later(&mut two);
    assert_eq!(wait.number(), 0);
    let wait = wait.poll().expect_err("the permit is held");
    held.release();
    assert!(wait.poll().is_ok());
    assert_eq!(one.state(), 1);
}

#[test]
fn a_waiter_gives_up() {
    let semaphore = semaphore(1, 10);
    let (mut one, mut two) = (semaphore.pass().unwrap(), semaphore.pass().unwrap());
    let held = now(&mut one);
    let wait = later(&mut two);
    assert!(matches!(wait.cancel(), Cancelled::Gone(_)));
    held.release();
    assert_eq!(one.state(), 1);
}

#[test]
fn late_at_its_deadline() {
    let semaphore = semaphore(1, 10);
    let (mut one, mut two) = (semaphore.pass().unwrap(), semaphore.pass().unwrap());
    let held = now(&mut one);
    let wait = later(&mut two);
    held.release();
    assert!(matches!(wait.cancel(), Cancelled::TooLate(_)));
    assert_eq!(one.state(), 1);
}

#[test]
fn both_give_up() {
    let semaphore = semaphore(1, 10);
    let mut passes: Vec<SemaphorePass> = (0..3).map(|_| semaphore.pass().unwrap()).collect();
    let [one, two, three] = &mut passes[..] else { unreachable!() };
    let held = now(one);
    let (second, third) = (later(two), later(three));
    drop(second);
    drop(third);
    assert_eq!(held.release().state(), 1);
}

#[test]
fn served_in_order() {
    let semaphore = semaphore(1, 10);
    let mut passes: Vec<SemaphorePass> = (0..3).map(|_| semaphore.pass().unwrap()).collect();
    let [one, two, three] = &mut passes[..] else { unreachable!() };
    let held = now(one);
    let (second, third) = (later(two), later(three));
    let one = held.release();
    let third = third.poll().expect_err("the first of the line is served first");
    let second = second.poll().expect("it was the first of the line");
    assert_eq!(one.try_acquire().err(), Some(TryError::NoneFree));
    second.release();
    assert!(third.poll().is_ok());
}

#[test]
fn seventy_cancelled_waits() {
    let semaphore = semaphore(1, 100);
    let (mut one, mut two) = (semaphore.pass().unwrap(), semaphore.pass().unwrap());
    let mut held = now(&mut one);
    for number in 0..70 {
        let wait = later(&mut two);
        assert_eq!(wait.number(), number);
        drop(wait);
    }
    let wait = later(&mut two);
    assert_eq!(wait.number(), 70);
    let one = held.release();
    held = wait.poll().expect("the release passed over the seventy");
    held.release();
    assert_eq!(one.state(), 1);
}

#[test]
fn worn() {
    let semaphore = semaphore(1, 1);
    let (mut one, mut two) = (semaphore.pass().unwrap(), semaphore.pass().unwrap());
    let held = now(&mut one);
    drop(later(&mut two));
    assert_eq!(two.acquire().err(), Some(WaitError::Worn));
    held.release();
    assert_eq!(two.acquire().err(), Some(WaitError::Worn));
    assert!(two.try_acquire().is_ok());
}

#[test]
fn sizes_out_of_range() {
    let sizes =
        |permits, passes, limit| match Semaphore::new(SemaphoreConfig { permits, passes, limit }) {
            Err(MakeError::BadConfig(number)) => number.name(),
            Err(MakeError::Memory) => "memory",
            Ok(_) => "",
        };
    assert_eq!(sizes(0, 1, 1), "permits");
    assert_eq!(sizes(1_048_577, 1, 1), "permits");
    assert_eq!(sizes(1, 0, 1), "passes");
    assert_eq!(sizes(1, 32, 1), "passes");
    assert_eq!(sizes(1, 1, 0), "limit");
    assert_eq!(sizes(1, 1, 68_719_476_737), "limit");
    assert_eq!(sizes(1, 1, 68_719_476_736), "");
    assert_eq!(sizes(1_048_576, 31, 1), "");
}

#[test]
fn a_pass_that_is_given_up_is_given_out_again() {
    let semaphore = semaphore(2, 10);
    let passes: Vec<SemaphorePass> = (0..31).map(|_| semaphore.pass().unwrap()).collect();
    assert!(semaphore.pass().is_err());
    drop(passes);
    for _ in 0..100 {
        let mut pass = semaphore.pass().unwrap();
        std::mem::forget(now(&mut pass));
    }
    assert_eq!(semaphore.pass().unwrap().state(), 2);
}

#[test]
fn what_was_forgotten_is_ended_with_its_pass() {
    let semaphore = semaphore(1, 10);
    let mut one = semaphore.pass().unwrap();
    let held = now(&mut one);
    let mut two = semaphore.pass().unwrap();
    std::mem::forget(later(&mut two));
    drop(two);
    let mut three = semaphore.pass().unwrap();
    let wait = later(&mut three);
    held.release();
    assert!(wait.poll().is_ok());
}

#[test]
fn what_was_forgotten_is_ended_by_the_next_call() {
    let semaphore = semaphore(2, 10);
    let (mut one, mut two) = (semaphore.pass().unwrap(), semaphore.pass().unwrap());
    std::mem::forget(now(&mut one));
    assert_eq!(one.state(), 2);
    let mut three = semaphore.pass().unwrap();
    let held = (now(&mut one), now(&mut three));
    // A wait that was forgotten is no more in line when its pass comes again.
    std::mem::forget(later(&mut two));
    let wait = later(&mut two);
    assert_eq!(wait.number(), 1);
    drop(held);
    assert!(wait.poll().is_ok());
    // What had come to it goes to the next one.
    let held = (now(&mut one), now(&mut three));
    std::mem::forget(later(&mut two));
    drop(held);
    assert!(two.try_acquire().is_ok());
    assert_eq!(one.state(), 2);
}
