//! A barrier, round after round: parties that arrive wait until all have arrived.

use crate::errors::{MakeError, TimeoutError, expect_in};
use crate::ffi::{self, Answer};
use crate::gate::Gate;
use crate::primitive::{MOST_LIMIT, Primitive};
use crate::sleeper::deadline_after;
use crate::wakers::lock;
use std::fmt;
use std::future::Future;
use std::pin::Pin;
use std::sync::{Arc, Mutex};
use std::task::{Context, Poll};
use std::time::{Duration, Instant};

/// How a [`Barrier`] is made.
///
/// ```
/// use cqs::{Barrier, BarrierConfig};
///
/// let barrier = Barrier::with_config(BarrierConfig { parties: 1 }).unwrap();
/// assert!(barrier.wait_blocking().is_leader());
/// ```
#[derive(Clone, Copy, Debug, PartialEq, Eq)]
pub struct BarrierConfig {
    /// How many parties there are, from 1 to 32.
    pub parties: usize,
}

impl Default for BarrierConfig {
    /// Two parties.
    fn default() -> BarrierConfig {
        BarrierConfig { parties: 2 }
    }
}

/// A barrier: parties that arrive wait until as many have arrived as it was made for, and then all
/// go on, and the next round begins.
///
/// A party that stops waiting has not arrived.
///
/// # Examples
///
/// ```
/// use cqs::Barrier;
/// use std::thread;
///
/// let barrier = Barrier::new(3);
/// let leaders: usize = thread::scope(|scope| {
///     let party = || {
///         // Work of the first round, then that of the second one.
///         let first = barrier.wait_blocking();
///         let second = barrier.wait_blocking();
///         usize::from(first.is_leader()) + usize::from(second.is_leader())
///     };
///     let parties: Vec<_> = (0..3).map(|_| scope.spawn(party)).collect();
///     parties.into_iter().map(|party| party.join().unwrap()).sum()
/// });
/// assert_eq!(leaders, 2);
/// ```
///
/// ```
/// async fn meet(barrier: &cqs::Barrier) {
///     if barrier.wait().await.is_leader() {
///         // It was the last one to arrive.
///     }
/// }
/// # use std::future::Future;
/// # let barrier = cqs::Barrier::new(1);
/// # let mut cx = std::task::Context::from_waker(std::task::Waker::noop());
/// # assert!(std::pin::pin!(meet(&barrier)).poll(&mut cx).is_ready());
/// ```
pub struct Barrier {
    parties: u32,
    /// The round that parties arrive at, once one has. An arrival and a withdrawal go under this
    /// lock, and nobody waits under it.
    round: Mutex<Option<Round>>,
}

/// A round: a barrier of the library is for one time.
struct Round {
    primitive: Primitive,
    parties: u32,
    /// The waits of those who have arrived. Parties are all alike, so one that withdraws takes any.
    waits: Vec<u64>,
    gate: Arc<Gate>,
    /// So many have arrived, of which some may have withdrawn.
    arrivals: u64,
}

fn primitive(parties: u32) -> Result<Primitive, MakeError> {
    Primitive::new(ffi::KIND_BARRIER, parties, 1, MOST_LIMIT, parties)
}

impl Round {
    fn new(parties: u32) -> Result<Round, MakeError> {
        let primitive = primitive(parties)?;
        let waits = Vec::with_capacity(parties as usize);
        Ok(Round { primitive, parties, waits, gate: Arc::default(), arrivals: 0 })
    }

    /// A party arrives, and says whether it is the last one.
    fn enter(&mut self) -> bool {
        let mut answer = self.primitive.call(ffi::DO_ENTER, 0, 0);
        if let ffi::WORN | ffi::CROWDED = answer.answer {
            self.renew();
            answer = self.primitive.call(ffi::DO_ENTER, 0, 0);
        }
        match answer.answer {
            ffi::LATER => {
                self.waits.push(answer.number as u64);
                self.arrivals += 1;
                false
            }
            ffi::LAST => true,
            ffi::LAST_OWING => {
                self.finish(answer);
                true
            }
            other => unreachable!("an arrival was answered {other}"),
        }
    }

    /// Parties have withdrawn so often that those who are here stand in many slots, and none is left,
    /// or no wait is left to draw. So they arrive at another barrier of the library.
    fn renew(&mut self) {
        self.primitive = primitive(self.parties).unwrap_or_else(no_memory);
        for wait in &mut self.waits {
            let answer = self.primitive.call(ffi::DO_ENTER, 0, 0);
            assert_eq!(answer.answer, ffi::LATER, "one more was to arrive");
            *wait = answer.number as u64;
        }
    }

    /// A party withdraws.
    fn leave(&mut self) {
        let wait = self.waits.pop().expect("who withdraws has arrived");
        let answer = self.finish(self.primitive.call(ffi::DO_CANCEL, 0, wait));
        assert_eq!(answer.answer, ffi::CANCELLED, "not all have arrived");
    }

    /// Goes on where an answer says so.
    fn finish(&self, mut answer: Answer) -> Answer {
        while let ffi::UNDER | ffi::CONTENDED | ffi::LAST_OWING = answer.answer {
            answer = self.primitive.call(ffi::DO_FINISH, 0, 0);
        }
        answer
    }
}

#[track_caller]
fn no_memory<T>(error: MakeError) -> T {
    panic!("no round of a barrier: {error}")
}

/// What a party is told that went through a [`Barrier`].
///
/// ```
/// let through = cqs::Barrier::new(1).wait_blocking();
/// assert!(through.is_leader());
/// ```
#[derive(Clone, Copy, Debug, PartialEq, Eq)]
pub struct BarrierWait {
    is_leader: bool,
}

impl BarrierWait {
    /// Whether it was the last one to arrive in its round: one of each round was.
    #[must_use]
    pub fn is_leader(&self) -> bool {
        self.is_leader
    }
}

const LEADER: BarrierWait = BarrierWait { is_leader: true };
const FOLLOWER: BarrierWait = BarrierWait { is_leader: false };

/// A party that has arrived, and waits: at which gate, and as which of the arrivals there.
struct Arrived {
    gate: Arc<Gate>,
    number: u64,
}

impl Barrier {
    /// A barrier of so many parties.
    ///
    /// # Panics
    ///
    /// Where there are no parties or more than 32, or no memory: [`Barrier::with_config`] says so.
    #[must_use]
    #[track_caller]
    pub fn new(parties: usize) -> Barrier {
        let made = Barrier::with_config(BarrierConfig { parties });
        made.unwrap_or_else(|error| panic!("no barrier: {error}"))
    }

    /// A barrier at which none has arrived.
    pub fn with_config(config: BarrierConfig) -> Result<Barrier, MakeError> {
        let BarrierConfig { parties } = config;
        expect_in(1..=32, "parties", parties as u64)?;
        let parties = parties as u32;
        let round = Mutex::new(Some(Round::new(parties)?));
        Ok(Barrier { parties, round })
    }

    /// Arrives, and waits until all have arrived. Dropped before, the future's party withdraws; where
    /// all had arrived by then, it has gone through, and isn't told.
    ///
    /// # Panics
    ///
    /// Where there is no memory for another round.
    pub async fn wait(&self) -> BarrierWait {
        Waiting { barrier: self, stage: Stage::New }.await
    }

    /// Arrives, and waits until all have arrived. The thread sleeps.
    ///
    /// # Panics
    ///
    /// Where there is no memory for another round.
    pub fn wait_blocking(&self) -> BarrierWait {
        match self.wait_until(None) {
            Ok(through) => through,
            Err(_) => unreachable!("there is no deadline"),
        }
    }

    /// Arrives, and waits until all have arrived, or until the time is over; then the party has not
    /// arrived. The thread sleeps. It is never told that the barrier is worn or
    /// crowded.
    ///
    /// # Panics
    ///
    /// Where there is no memory for another round.
    ///
    /// ```
    /// use cqs::{Barrier, TimeoutError};
    /// use std::time::Duration;
    ///
    /// let barrier = Barrier::new(2);
    /// let alone = barrier.wait_timeout(Duration::from_millis(1));
    /// assert_eq!(alone.unwrap_err(), TimeoutError::TimedOut);
    /// ```
    pub fn wait_timeout(&self, time: Duration) -> Result<BarrierWait, TimeoutError> {
        self.wait_until(deadline_after(time))
    }

    fn wait_until(&self, deadline: Option<Instant>) -> Result<BarrierWait, TimeoutError> {
        let Some(arrived) = self.arrive() else { return Ok(LEADER) };
        match arrived.gate.pass(arrived.number, deadline) {
            Err(late) if self.withdraw(&arrived) => Err(late),
            _ => Ok(FOLLOWER),
        }
    }

    /// A party arrives. The last one ends the round, and lets all others through.
    fn arrive(&self) -> Option<Arrived> {
        let mut round = lock(&self.round);
        let here = round.get_or_insert_with(|| Round::new(self.parties).unwrap_or_else(no_memory));
        if !here.enter() {
            return Some(Arrived { gate: here.gate.clone(), number: here.arrivals });
        }
        let over = round.take();
        drop(round);
        if let Some(over) = over {
            over.gate.open();
        }
        None
    }

    /// A party that waits withdraws, and says whether it did: else all have arrived.
    fn withdraw(&self, arrived: &Arrived) -> bool {
        arrived.gate.strike(arrived.number);
        let mut round = lock(&self.round);
        match &mut *round {
            Some(here) if Arc::ptr_eq(&here.gate, &arrived.gate) => {
                here.leave();
                true
            }
            _ => false,
        }
    }
}

impl fmt::Debug for Barrier {
    fn fmt(&self, f: &mut fmt::Formatter<'_>) -> fmt::Result {
        let waiting = lock(&self.round).as_ref().map_or(0, |round| round.waits.len());
        let mut shown = f.debug_struct("Barrier");
        shown.field("parties", &self.parties).field("waiting", &waiting).finish_non_exhaustive()
    }
}

/// A future that waits. Dropped, its party withdraws.
struct Waiting<'a> {
    barrier: &'a Barrier,
    stage: Stage,
}

enum Stage {
    New,
    Arrived(Arrived),
    Over,
}

impl Future for Waiting<'_> {
    type Output = BarrierWait;

    fn poll(mut self: Pin<&mut Self>, cx: &mut Context<'_>) -> Poll<Self::Output> {
        if let Stage::New = self.stage {
            let Some(arrived) = self.barrier.arrive() else {
                self.stage = Stage::Over;
                return Poll::Ready(LEADER);
            };
            self.stage = Stage::Arrived(arrived);
        }
        let Stage::Arrived(arrived) = &self.stage else {
            panic!("a future was polled after it was ready")
        };
        if !arrived.gate.register(arrived.number, cx.waker()) {
            return Poll::Pending;
        }
        self.stage = Stage::Over;
        Poll::Ready(FOLLOWER)
    }
}

impl Drop for Waiting<'_> {
    fn drop(&mut self) {
        if let Stage::Arrived(arrived) = &self.stage {
            self.barrier.withdraw(arrived);
        }
    }
}
