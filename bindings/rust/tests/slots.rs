//! Few slots, which are used again: more waits than could ever stand in them, and callers who find
//! none.

mod common;

use common::{Chance, poll_once};
use cqs::{
    Acquire, Barrier, Permit, Pool, Semaphore, SemaphoreConfig, TimeoutError, WaitError, pass,
};
use std::pin::{Pin, pin};
use std::sync::atomic::{AtomicU64, Ordering};
use std::task::Waker;
use std::thread;
use std::time::Duration;

#[test]
fn a_semaphore_is_not_used_up_by_a_million_waits() {
    let semaphore = Semaphore::new(1);
    let mut held = semaphore.try_acquire().unwrap();
    // Each round draws two waits: one is given up, and one is served.
    for _ in 0..600_000 {
        let mut left = Box::pin(semaphore.acquire());
        assert!(poll_once(left.as_mut(), Waker::noop()).is_none());
        let mut served = pin!(semaphore.acquire());
        assert!(poll_once(served.as_mut(), Waker::noop()).is_none());
        drop(left);
        drop(held);
        held = poll_once(served.as_mut(), Waker::noop()).expect("it was served").unwrap();
    }
    drop(held);
    assert_eq!(semaphore.available_permits(), 1);
}

#[test]
fn a_pool_is_not_used_up_by_a_million_waits() {
    let pool = Pool::new([0_u32]);
    let mut held = pool.try_take().unwrap();
    for _ in 0..1_100_000 {
        *held += 1;
        let mut served = pin!(pool.take());
        assert!(poll_once(served.as_mut(), Waker::noop()).is_none());
        drop(held);
        held = poll_once(served.as_mut(), Waker::noop()).expect("it was served").unwrap();
    }
    assert_eq!(*held, 1_100_000);
}

/// A future that was polled once, and waits.
fn waiting(semaphore: &Semaphore) -> Result<Pin<Box<Acquire<'_>>>, WaitError> {
    let mut acquire = Box::pin(semaphore.acquire());
    match poll_once(acquire.as_mut(), Waker::noop()) {
        None => Ok(acquire),
        Some(Ok(_)) => panic!("no permit is free"),
        Some(Err(error)) => Err(error),
    }
}

/// All who wait are served, in order.
fn all_are_served<'a>(mut held: Permit<'a>, waits: Vec<Pin<Box<Acquire<'a>>>>) {
    for mut wait in waits {
        drop(held);
        held = poll_once(wait.as_mut(), Waker::noop()).expect("it was served").unwrap();
    }
}

#[test]
fn who_comes_to_a_full_line_is_refused_until_one_leaves() {
    for waiters in [1, 32, 100] {
        let config = SemaphoreConfig { waiters, ..SemaphoreConfig::default() };
        let semaphore = Semaphore::with_config(config).unwrap();
        let held = semaphore.try_acquire().unwrap();
        let mut waits = Vec::new();
        let error = loop {
            match waiting(&semaphore) {
                Ok(wait) => waits.push(wait),
                Err(error) => break error,
            }
        };
        assert_eq!(error, WaitError::Crowded);
        assert!((waiters..=waiters + 32).contains(&waits.len()), "{} wait", waits.len());
        assert_eq!(semaphore.acquire_blocking().unwrap_err(), WaitError::Crowded);
        let short = Duration::from_millis(1);
        assert_eq!(semaphore.acquire_timeout(short).unwrap_err(), TimeoutError::Crowded);
        // One leaves, from the middle, and another one can come; but no second one.
        drop(waits.remove(waits.len() / 2));
        waits.push(waiting(&semaphore).expect("there is room again"));
        assert_eq!(waiting(&semaphore).err(), Some(WaitError::Crowded));
        all_are_served(held, waits);
        assert_eq!(semaphore.available_permits(), 1);
    }
}

#[test]
fn one_who_waits_on_keeps_a_slot() {
    let config = SemaphoreConfig { waiters: 1000, ..SemaphoreConfig::default() };
    let semaphore = Semaphore::with_config(config).unwrap();
    let held = semaphore.try_acquire().unwrap();
    let mut waits = Vec::new();
    // Of 32 who come one after the other, one stays.
    for came in 0.. {
        match waiting(&semaphore) {
            Ok(wait) if came % 32 == 0 => waits.push(wait),
            Ok(wait) => drop(wait),
            Err(error) => {
                assert_eq!(error, WaitError::Crowded);
                break;
            }
        }
    }
    assert!((10..1000).contains(&waits.len()), "{} wait", waits.len());
    // The last slot comes free only once there is one after it.
    drop(waits.remove(waits.len() / 2));
    waits.push(waiting(&semaphore).expect("a slot is free again"));
    all_are_served(held, waits);
    assert_eq!(semaphore.available_permits(), 1);
}

#[test]
fn nothing_is_lost_among_crowded_threads() {
    const PERMITS: usize = 3;
    let config = SemaphoreConfig { permits: PERMITS, waiters: 1, ..SemaphoreConfig::default() };
    let semaphore = Semaphore::with_config(config).unwrap();
    let crowded = AtomicU64::new(0);
    thread::scope(|scope| {
        for seed in 1..=8 {
            let (semaphore, crowded) = (&semaphore, &crowded);
            scope.spawn(move || {
                let mut chance = Chance(seed * 0x9e37_79b9);
                let (mut waits, mut held) = (Vec::new(), Vec::new());
                for _ in 0..50_000 {
                    match chance.below(8) {
                        0..=2 => {
                            let mut acquire = Box::pin(semaphore.acquire());
                            match poll_once(acquire.as_mut(), Waker::noop()) {
                                None => waits.push(acquire),
                                Some(Ok(permit)) => held.push(permit),
                                Some(Err(error)) => {
                                    assert_eq!(error, WaitError::Crowded);
                                    crowded.fetch_add(1, Ordering::Relaxed);
                                }
                            }
                        }
                        3 => held.extend(semaphore.try_acquire()),
                        4..=5 => drop(held.pop()),
                        // Those who came late leave, and the first ones stay.
                        6 => drop(waits.pop()),
                        _ if !waits.is_empty() => {
                            let at = chance.below(waits.len() as u64) as usize;
                            match poll_once(waits[at].as_mut(), Waker::noop()) {
                                None => {}
                                Some(permit) => {
                                    held.push(permit.expect("it waited"));
                                    drop(waits.swap_remove(at));
                                }
                            }
                        }
                        _ => {}
                    }
                }
            });
        }
    });
    assert!(crowded.into_inner() > 0);
    assert_eq!(semaphore.available_permits(), PERMITS);
    let all: Vec<_> = (0..PERMITS).map(|_| semaphore.acquire_blocking().unwrap()).collect();
    assert!(semaphore.try_acquire().is_err());
    drop(all);
}

#[test]
fn a_release_that_finds_no_slot_is_made_later() {
    let config = pass::SemaphoreConfig::default();
    let semaphore = pass::Semaphore::new(config).unwrap();
    let (mut holder, mut guest) = (semaphore.pass().unwrap(), semaphore.pass().unwrap());
    let mut stayers: Vec<_> = (0..29).map(|_| semaphore.pass().unwrap()).collect();
    // This one has no slot to spare, since it never came to wait.
    let permit = holder.try_acquire().unwrap();
    let mut waits = Vec::new();
    let mut was_crowded = false;
    // Each who stays keeps the slot of its wait, and has two to spare: the guest opens the slots.
    for stayer in &mut stayers {
        let come = |pass: &mut pass::SemaphorePass| match pass.acquire() {
            Ok(pass::Acquired::Later(wait)) => drop(wait),
            Ok(pass::Acquired::Now(_)) => panic!("no permit is free"),
            Err(error) => assert_eq!(error, WaitError::Crowded),
        };
        come(&mut guest);
        match stayer.acquire() {
            Ok(pass::Acquired::Later(wait)) => waits.push(wait),
            Ok(pass::Acquired::Now(_)) => panic!("no permit is free"),
            Err(error) => {
                assert_eq!(error, WaitError::Crowded);
                was_crowded = true;
                break;
            }
        }
        for _ in 0..30 {
            come(&mut guest);
        }
    }
    assert!(was_crowded, "{} wait", waits.len());
    let holder_again = permit.release();
    assert_eq!(holder_again.acquire().err(), Some(WaitError::Crowded));
    drop(holder);
    let mut first = waits.remove(0);
    first = first.poll().expect_err("there was no slot to send it the permit");
    // One leaves, and the permit comes.
    drop(waits.remove(waits.len() / 2));
    let mut permit = first.poll().expect("there is a slot again");
    for wait in waits {
        drop(permit);
        permit = wait.poll().expect("it was served");
    }
}

#[test]
fn a_barrier_is_not_used_up_by_those_who_withdraw() {
    let barrier = Barrier::new(32);
    let mut stayers = Vec::new();
    for came in 0..100_000 {
        let mut wait = Box::pin(barrier.wait());
        assert!(poll_once(wait.as_mut(), Waker::noop()).is_none());
        if came % 3000 == 0 && stayers.len() < 30 {
            stayers.push(wait);
        }
    }
    let mut last_but_one = Box::pin(barrier.wait());
    assert!(poll_once(last_but_one.as_mut(), Waker::noop()).is_none());
    stayers.push(last_but_one);
    assert!(barrier.wait_blocking().is_leader());
    for mut stayer in stayers {
        assert!(poll_once(stayer.as_mut(), Waker::noop()).is_some());
    }
}
