//! The latch: rows of calls worked out by hand, and calls by chance, each compared with a plain
//! latch: what is left of its count.

use std::sync::atomic::{AtomicU32, Ordering};
use std::thread;

use cqs::WaitError;
use cqs::pass::{Down, Entered, Latch, LatchConfig, LatchEnd, LatchMode, LatchPass, LatchWait};

fn latch(count: u32, mode: LatchMode, limit: u64) -> Latch {
    Latch::new(LatchConfig { count, mode, limit, ..LatchConfig::default() }).expect("memory")
}

fn later(pass: &mut LatchPass) -> LatchWait<'_> {
    match pass.wait() {
        Ok(Entered::Later(wait)) => wait,
        _ => panic!("the latch is shut"),
    }
}

const MODES: [LatchMode; 2] = [LatchMode::Smart, LatchMode::Simple];

#[test]
fn opened_by_the_last() {
    for mode in MODES {
        let latch = latch(2, mode, 10);
        let (mut one, mut two) = (latch.pass().unwrap(), latch.pass().unwrap());
        assert_eq!(one.count_down(), Down::Left(1));
        let wait = later(&mut two);
        assert_eq!(wait.number(), 0);
        let wait = wait.poll().expect_err("one count is left");
        assert_eq!(one.count_down(), Down::Last);
        assert!(wait.poll().is_ok());
        assert_eq!(one.count_down(), Down::Already);
        assert!(matches!(two.wait(), Ok(Entered::Passed)));
    }
}

#[test]
fn gives_up_before_and_after() {
    for mode in MODES {
        let latch = latch(1, mode, 10);
        let mut passes: Vec<LatchPass> = (0..3).map(|_| latch.pass().unwrap()).collect();
        let [one, two, three] = &mut passes[..] else { unreachable!() };
        assert_eq!(later(two).cancel().0, LatchEnd::Gone);
        let wait = later(three);
        assert_eq!(one.count_down(), Down::Last);
        assert_eq!(wait.cancel().0, LatchEnd::TooLate);
    }
}

#[test]
fn two_hundred_leave_before_one_who_stays() {
    for mode in MODES {
        let latch = latch(1, mode, 1_000);
        let (mut one, mut two) = (latch.pass().unwrap(), latch.pass().unwrap());
        for _ in 0..200 {
            drop(later(&mut two));
        }
        let wait = later(&mut two);
        assert_eq!(one.count_down(), Down::Last);
        assert!(wait.poll().is_ok());
    }
}

#[test]
fn worn_and_then_open() {
    let latch = latch(1, LatchMode::Smart, 1);
    let (mut one, mut two) = (latch.pass().unwrap(), latch.pass().unwrap());
    drop(later(&mut two));
    assert_eq!(two.wait().err(), Some(WaitError::Worn));
    assert_eq!(one.count_down(), Down::Last);
    assert!(matches!(two.wait(), Ok(Entered::Passed)));
}

/// A generator of numbers by chance (xorshift).
struct Chance(u64);

impl Chance {
    fn below(&mut self, bound: u64) -> usize {
        self.0 ^= self.0 << 13;
        self.0 ^= self.0 >> 7;
        self.0 ^= self.0 << 17;
        (self.0 % bound) as usize
    }
}

enum Caller {
    Idle(&'static mut LatchPass),
    Waits(LatchWait<'static>),
}

fn count_down(pass: &mut LatchPass, left: &mut u32, place: &str) {
    let expected = match *left {
        0 => Down::Already,
        1 => Down::Last,
        left => Down::Left(left - 1),
    };
    match pass.count_down() {
        // There is no slot for now, and nothing was counted.
        Down::Crowded => assert!(*left > 0, "{place}"),
        answer => {
            assert_eq!(answer, expected, "{place}");
            *left = left.saturating_sub(1);
        }
    }
}

fn wait(pass: &'static mut LatchPass, left: u32, next: &mut u64, place: &str) -> Caller {
    let at: *mut LatchPass = pass;
    match pass.wait() {
        Ok(Entered::Later(wait)) => {
            assert!(left > 0, "{place}");
            assert_eq!(wait.number(), *next, "{place}");
            *next += 1;
            Caller::Waits(wait)
        }
        Ok(Entered::Passed) => {
            assert_eq!(left, 0, "{place}");
            // SAFETY: the wait has ended, and the pass lives for ever.
            Caller::Idle(unsafe { &mut *at })
        }
        // There is no slot for now, and no number was drawn.
        Err(error) => {
            assert_eq!(error, WaitError::Crowded, "{place}");
            // SAFETY: no wait began, and the pass lives for ever.
            Caller::Idle(unsafe { &mut *at })
        }
    }
}

fn end(wait: LatchWait<'static>, left: u32, gives_up: bool, place: &str) -> Caller {
    if gives_up {
        let (end, pass) = wait.cancel();
        assert_eq!(end, if left > 0 { LatchEnd::Gone } else { LatchEnd::TooLate }, "{place}");
        return Caller::Idle(pass);
    }
    match wait.poll() {
        Ok(pass) => {
            assert_eq!(left, 0, "{place}");
            Caller::Idle(pass)
        }
        Err(wait) => {
            assert!(left > 0, "{place}");
            Caller::Waits(wait)
        }
    }
}

fn run(seed: u64, mode: LatchMode, callers: usize, calls: usize) {
    let mut chance = Chance(seed);
    let mut left = chance.below(calls as u64 / 8) as u32;
    let mut next = 0;
    let latch = latch(left, mode, 1_048_576);
    let owners: Vec<_> =
        (0..callers).map(|_| Box::into_raw(Box::new(latch.pass().unwrap()))).collect();
    // SAFETY: each is lent once, and freed below, after all that it was lent to has ended.
    let mut states: Vec<Option<Caller>> =
        owners.iter().map(|&owner| Some(Caller::Idle(unsafe { &mut *owner }))).collect();
    for turn in 0..calls {
        let at = chance.below(callers as u64);
        let place = format!("seed {seed}, call {turn}, caller {at}");
        states[at] = Some(match states[at].take().unwrap() {
            Caller::Idle(pass) if chance.below(4) == 0 => {
                count_down(pass, &mut left, &place);
                Caller::Idle(pass)
            }
            Caller::Idle(pass) => wait(pass, left, &mut next, &place),
            Caller::Waits(wait) => end(wait, left, chance.below(3) == 0, &place),
        });
    }
    drop(states);
    for owner in owners {
        // SAFETY: it came from a box, and nobody has it any more.
        drop(unsafe { Box::from_raw(owner) });
    }
}

#[test]
fn as_the_plain_latch() {
    for seed in 1..=200 {
        for mode in MODES {
            run(seed, mode, 2 + (seed % 29) as usize, 1_000);
        }
    }
}

/// Threads wait while others count down: all come through, and none before the last count.
#[test]
fn four_wait_and_four_count_down() {
    for mode in MODES {
        let latch = latch(4_000, mode, 10_000);
        let counted = AtomicU32::new(0);
        thread::scope(|scope| {
            for _ in 0..4 {
                scope.spawn(|| {
                    latch.pass().unwrap().wait_yielding().unwrap();
                    assert_eq!(counted.load(Ordering::SeqCst), 4_000);
                });
                scope.spawn(|| {
                    let mut pass = latch.pass().unwrap();
                    for _ in 0..1_000 {
                        counted.fetch_add(1, Ordering::SeqCst);
                        pass.count_down();
                    }
                });
            }
        });
        assert_eq!(latch.pass().unwrap().count_down(), Down::Already);
    }
}
