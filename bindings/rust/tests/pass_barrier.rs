//! The barrier: rows of calls worked out by hand, calls by chance, each compared with a plain
//! barrier, and threads that arrive and withdraw.

use cqs::MakeError;
use cqs::pass::{Arrival, ArriveError, Barrier, BarrierConfig, Party, PartyEnd, PartyWait};
use std::sync::atomic::{AtomicU32, Ordering};
use std::thread;

fn barrier(parties: u32) -> Barrier {
    Barrier::new(BarrierConfig { parties, ..BarrierConfig::default() }).expect("memory")
}

fn later(party: &mut Party) -> PartyWait<'_> {
    match party.arrive() {
        Ok(Arrival::Later(wait)) => wait,
        _ => panic!("others are still to arrive"),
    }
}

fn goes_through(party: &mut Party) -> bool {
    matches!(party.arrive(), Ok(Arrival::Through))
}

#[test]
fn all_wait_for_the_last() {
    let barrier = barrier(3);
    let mut parties: Vec<Party> = (0..3).map(|_| barrier.party().unwrap()).collect();
    let [one, two, three] = &mut parties[..] else { unreachable!() };
    let (first, second) = (later(one), later(two));
    assert_eq!((first.number(), second.number()), (0, 1));
    let first = first.poll().expect_err("one is still to come");
    assert!(goes_through(three));
    let one = first.poll().expect("all have arrived");
    assert_eq!(second.cancel().0, PartyEnd::TooLate);
    // The barrier is for one time.
    assert_eq!(one.arrive().err(), Some(ArriveError::Over));
    assert_eq!(two.arrive().err(), Some(ArriveError::Over));
}

#[test]
fn withdraws_and_arrives_again() {
    let barrier = barrier(2);
    let (mut one, mut two) = (barrier.party().unwrap(), barrier.party().unwrap());
    assert_eq!(later(&mut one).cancel().0, PartyEnd::Withdrawn);
    let wait = later(&mut two);
    assert_eq!(wait.number(), 1);
    assert!(goes_through(&mut one));
    assert!(wait.poll().is_ok());
}

#[test]
fn one_party_waits_for_nobody() {
    let barrier = barrier(1);
    assert!(goes_through(&mut barrier.party().unwrap()));
    assert!(barrier.party().is_err());
}

#[test]
fn two_hundred_withdrawals_before_the_last() {
    let barrier = barrier(3);
    let mut parties: Vec<Party> = (0..3).map(|_| barrier.party().unwrap()).collect();
    let [one, two, three] = &mut parties[..] else { unreachable!() };
    for _ in 0..200 {
        drop(later(one));
    }
    let (first, second) = (later(one), later(two));
    assert!(goes_through(three));
    assert!(first.poll().is_ok());
    assert!(second.poll().is_ok());
}

#[test]
fn worn() {
    let barrier = Barrier::new(BarrierConfig { parties: 2, limit: 1 }).unwrap();
    let mut one = barrier.party().unwrap();
    drop(later(&mut one));
    assert_eq!(one.arrive().err(), Some(ArriveError::Worn));
}

#[test]
fn sizes_out_of_range() {
    let sizes = |parties, limit| match Barrier::new(BarrierConfig { parties, limit }) {
        Err(MakeError::BadConfig(number)) => number.name(),
        Err(MakeError::Memory) => "memory",
        Ok(_) => "",
    };
    assert_eq!(sizes(0, 1), "parties");
    assert_eq!(sizes(32, 1), "parties");
    assert_eq!(sizes(1, 0), "limit");
    assert_eq!(sizes(1, 68_719_476_737), "limit");
    assert_eq!(sizes(1, 68_719_476_736), "");
    assert_eq!(sizes(31, 1), "");
}

#[test]
fn a_party_that_is_given_up_is_given_out_again() {
    let barrier = barrier(2);
    let mut one = barrier.party().unwrap();
    for _ in 0..100 {
        let mut two = barrier.party().unwrap();
        assert!(barrier.party().is_err());
        // What is forgotten is ended with its party.
        std::mem::forget(later(&mut two));
    }
    let wait = later(&mut one);
    assert!(goes_through(&mut barrier.party().unwrap()));
    assert!(wait.poll().is_ok());
    assert!(barrier.party().is_err());
}

/// A generator of numbers by chance (xorshift).
struct Chance(u64);

impl Chance {
    fn below(&mut self, bound: u64) -> usize {
        self.0 ^= self.0 << 13;
        self.0 ^= self.0 >> 7;
        self.0 ^= self.0 << 17;
        (self.0 % bound) as usize
    }
}

enum Caller {
    Away(&'static mut Party),
    Waits(PartyWait<'static>),
    Through(&'static mut Party),
}

fn arrive(party: &'static mut Party, left: &mut usize, next: &mut u64, place: &str) -> Caller {
    let at: *mut Party = party;
    *left -= 1;
    match party.arrive().unwrap() {
        Arrival::Later(wait) => {
            assert!(*left > 0, "{place}");
            assert_eq!(wait.number(), *next, "{place}");
            *next += 1;
            Caller::Waits(wait)
        }
        Arrival::Through => {
            assert_eq!(*left, 0, "{place}");
            // SAFETY: the arrival has ended, and the party lives for ever.
            Caller::Through(unsafe { &mut *at })
        }
    }
}

fn end(wait: PartyWait<'static>, left: &mut usize, gives_up: bool, place: &str) -> Caller {
    if gives_up {
        let (end, party) = wait.cancel();
        if *left > 0 {
            assert_eq!(end, PartyEnd::Withdrawn, "{place}");
            *left += 1;
            return Caller::Away(party);
        }
        assert_eq!(end, PartyEnd::TooLate, "{place}");
        return Caller::Through(party);
    }
    match wait.poll() {
        Ok(party) => {
            assert_eq!(*left, 0, "{place}");
            Caller::Through(party)
        }
        Err(wait) => {
            assert!(*left > 0, "{place}");
            Caller::Waits(wait)
        }
    }
}

fn run(seed: u64, parties: usize, calls: usize) {
    let mut chance = Chance(seed);
    let barrier = barrier(parties as u32);
    let (mut left, mut next) = (parties, 0);
    let owners: Vec<_> =
        (0..parties).map(|_| Box::into_raw(Box::new(barrier.party().unwrap()))).collect();
    // SAFETY: each is lent once, and freed below, after all that it was lent to has ended.
    let mut states: Vec<Option<Caller>> =
        owners.iter().map(|&owner| Some(Caller::Away(unsafe { &mut *owner }))).collect();
    for call in 0..calls {
        let at = chance.below(parties as u64);
        let place = format!("seed {seed}, call {call}, caller {at}");
        states[at] = Some(match states[at].take().unwrap() {
            Caller::Away(party) => arrive(party, &mut left, &mut next, &place),
            Caller::Waits(wait) => end(wait, &mut left, chance.below(8) == 0, &place),
            Caller::Through(party) => {
                assert_eq!(party.arrive().err(), Some(ArriveError::Over), "{place}");
                Caller::Through(party)
            }
        });
    }
    drop(states);
    for owner in owners {
        // SAFETY: it came from a box, and nobody has it any more.
        drop(unsafe { Box::from_raw(owner) });
    }
}

#[test]
fn as_the_plain_barrier() {
    for seed in 1..=2_000 {
        run(seed, 1 + (seed % 31) as usize, 400);
    }
}

/// Threads arrive, and some withdraw and arrive again: none comes through before all have come.
#[test]
fn eight_threads_meet() {
    const PARTIES: u32 = 8;
    for round in 0..500 {
        let barrier = barrier(PARTIES);
        let come = AtomicU32::new(0);
        thread::scope(|scope| {
            for thread in 0..PARTIES {
                let (barrier, come) = (&barrier, &come);
                scope.spawn(move || {
                    let mut party = barrier.party().unwrap();
                    come.fetch_add(1, Ordering::SeqCst);
                    let mut through = false;
                    for _ in 0..(thread + round) % 3 {
                        through = through
                            || match party.arrive().unwrap() {
                                Arrival::Through => true,
                                Arrival::Later(wait) => wait.cancel().0 == PartyEnd::TooLate,
                            };
                    }
                    if !through {
                        party.arrive_yielding().unwrap();
                    }
                    assert_eq!(come.load(Ordering::SeqCst), PARTIES);
                });
            }
        });
        assert!(barrier.party().is_err());
    }
}
