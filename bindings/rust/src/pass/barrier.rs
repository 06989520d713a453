//! A barrier, for one time: parties that arrive wait until all have arrived.

use crate::errors::{MakeError, expect_in};
use crate::ffi;
use crate::pass::PassError;
use crate::pass::shared::Shared;
use crate::primitive::MOST_LIMIT;
use std::error::Error;
use std::fmt;
use std::mem::ManuallyDrop;
use std::ptr;
use std::sync::Arc;

/// How a barrier is made.
#[derive(Clone, Copy, Debug, PartialEq, Eq)]
pub struct BarrierConfig {
    /// How many parties there are, from 1 to 31.
    pub parties: u32,
    /// How many waits may be drawn in all, from 1 to 68,719,476,736.
    pub limit: u64,
}

impl Default for BarrierConfig {
    /// Two parties, and as many waits as there may be.
    fn default() -> BarrierConfig {
        BarrierConfig { parties: 2, limit: MOST_LIMIT }
    }
}

/// A barrier. Clones are the same barrier.
///
/// ```
/// use cqs::pass::{Arrival, Barrier, BarrierConfig, PassError};
///
/// let barrier = Barrier::new(BarrierConfig { parties: 2, ..Default::default() }).unwrap();
/// let (mut one, mut two) = (barrier.party().unwrap(), barrier.party().unwrap());
/// assert_eq!(barrier.party().unwrap_err(), PassError::Crowded);
/// let Ok(Arrival::Later(wait)) = one.arrive() else { panic!("the other one is to come") };
/// assert!(matches!(two.arrive(), Ok(Arrival::Through)));
/// assert!(wait.poll().is_ok());
/// ```
#[derive(Clone, Debug)]
pub struct Barrier {
    shared: Arc<Shared>,
}

/// Why a party didn't arrive.
#[derive(Clone, Copy, Debug, PartialEq, Eq)]
pub enum ArriveError {
    /// As many waits were drawn as the barrier was made for.
    Worn,
    /// The party went through before.
    Over,
    /// There is no room for its wait: parties that came far apart wait, with many in between that
    /// withdrew. The party hasn't arrived, and may try again.
    Crowded,
}

impl fmt::Display for ArriveError {
    fn fmt(&self, f: &mut fmt::Formatter<'_>) -> fmt::Result {
        match self {
            ArriveError::Worn => write!(f, "as many waits were drawn as the barrier was made for"),
            ArriveError::Over => write!(f, "the party went through before"),
            ArriveError::Crowded => write!(f, "there is no room for the party's wait"),
        }
    }
}

impl Error for ArriveError {}

impl Barrier {
    /// A barrier at which none has arrived.
    pub fn new(config: BarrierConfig) -> Result<Barrier, MakeError> {
        let BarrierConfig { parties, limit } = config;
        expect_in(1..=31, "parties", parties.into())?;
        let shared = Shared::new(ffi::KIND_BARRIER, parties, parties, limit)?;
        Ok(Barrier { shared: Arc::new(shared) })
    }

    /// One of the parties, which nobody else is: one that was given up before it went through, or a
    /// new one.
    pub fn party(&self) -> Result<Party, PassError> {
        let number = self.shared.pass_with(1)?;
        Ok(Party { shared: self.shared.clone(), number, stage: Stage::Away })
    }
}

/// Where a party stands.
#[derive(Debug)]
enum Stage {
    /// It is to arrive.
    Away,
    /// It has arrived, and has this wait.
    Waits(u64),
    /// It is through.
    Through,
}

/// A party. It may go to another thread. One that is dropped before it went through is given to the
/// next who asks for a party, and has not arrived.
#[derive(Debug)]
pub struct Party {
    shared: Arc<Shared>,
    number: u32,
    stage: Stage,
}

/// What became of an arrival.
#[derive(Debug)]
#[must_use = "a party whose wait isn't kept withdraws at once"]
pub enum Arrival<'a> {
    /// All have arrived.
    Through,
    /// Others are still to arrive, and the party waits.
    Later(PartyWait<'a>),
}

/// What became of a wait that was given up.
#[derive(Clone, Copy, Debug, PartialEq, Eq)]
pub enum PartyEnd {
    /// The party is to arrive again.
    Withdrawn,
    /// All had arrived, and the party is through.
    TooLate,
}

impl Party {
    /// The party arrives.
    pub fn arrive(&mut self) -> Result<Arrival<'_>, ArriveError> {
        // What was forgotten, by `mem::forget`, is ended first.
        if let Stage::Waits(wait) = self.stage {
            self.end(wait);
        }
        if let Stage::Through = self.stage {
            return Err(ArriveError::Over);
        }
        let answer = self.shared.call(ffi::DO_ENTER, self.number, 0);
        match answer.answer {
            ffi::LAST => {
                self.stage = Stage::Through;
                Ok(Arrival::Through)
            }
            ffi::LAST_OWING => {
                self.shared.finish_all(self.number);
                self.stage = Stage::Through;
                Ok(Arrival::Through)
            }
            ffi::LATER => {
                let number = answer.number as u64;
                self.stage = Stage::Waits(number);
                Ok(Arrival::Later(PartyWait { party: self, number }))
            }
            ffi::WORN => Err(ArriveError::Worn),
            ffi::CROWDED => Err(ArriveError::Crowded),
            other => unreachable!("an arrival was answered {other}"),
        }
    }

    /// Arrives, and lets other threads run between two looks, until all have arrived.
    pub fn arrive_yielding(&mut self) -> Result<(), ArriveError> {
        let Arrival::Later(mut wait) = self.arrive()? else { return Ok(()) };
        while let Err(again) = wait.poll() {
            wait = again;
            std::thread::yield_now();
        }
        Ok(())
    }

    /// Looks at its wait, and says whether all have arrived.
    fn look(&mut self, wait: u64) -> bool {
        match self.shared.call(ffi::DO_POLL, self.number, wait).answer {
            ffi::THROUGH => {
                self.stage = Stage::Through;
                true
            }
            ffi::PENDING => false,
            other => unreachable!("a poll was answered {other}"),
        }
    }

    /// Ends its wait. Where others arrive or withdraw meanwhile, it tries again.
    fn end(&mut self, wait: u64) -> PartyEnd {
        let mut answer = self.shared.call(ffi::DO_CANCEL, self.number, wait).answer;
        while answer == ffi::CONTENDED {
            answer = self.shared.call(ffi::DO_FINISH, self.number, 0).answer;
        }
        match answer {
            ffi::CANCELLED => {
                self.stage = Stage::Away;
                PartyEnd::Withdrawn
            }
            ffi::TOO_LATE => {
                self.stage = Stage::Through;
                PartyEnd::TooLate
            }
            other => unreachable!("a cancel was answered {other}"),
        }
    }
}

impl Drop for Party {
    fn drop(&mut self) {
        if let Stage::Waits(wait) = self.stage {
            self.end(wait);
        }
        // The pass of one that is through has no party any more, and nobody needs it.
        if let Stage::Away = self.stage {
            self.shared.put_idle(self.number);
        }
    }
}

/// A wait for the others. The party withdraws when it is dropped.
#[derive(Debug)]
#[must_use = "a party whose wait isn't kept withdraws at once"]
pub struct PartyWait<'a> {
    party: &'a mut Party,
    number: u64,
}

impl<'a> PartyWait<'a> {
    /// The number of the wait.
    pub fn number(&self) -> u64 {
        self.number
    }

    /// The party, of which this wait is no more.
    fn into_party(self) -> &'a mut Party {
        let this = ManuallyDrop::new(self);
        // SAFETY: `this` is not dropped, and its party is read once.
        unsafe { ptr::read(&this.party) }
    }

    /// Looks whether all have arrived: then here is the party again.
    pub fn poll(self) -> Result<&'a mut Party, PartyWait<'a>> {
        if self.party.look(self.number) { Ok(self.into_party()) } else { Err(self) }
    }

    /// Gives the wait up. Here is the party again.
    pub fn cancel(self) -> (PartyEnd, &'a mut Party) {
        let number = self.number;
        let party = self.into_party();
        (party.end(number), party)
    }
}

impl Drop for PartyWait<'_> {
    fn drop(&mut self) {
        self.party.end(self.number);
    }
}
