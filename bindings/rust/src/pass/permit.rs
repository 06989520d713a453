//! A pass of a semaphore, and the permit that it has.

use crate::errors::WaitError;
use crate::ffi;
use crate::pass::shared::Shared;
use crate::pass::{TryError, Wait};
use std::mem::ManuallyDrop;
use std::ptr;
use std::sync::Arc;

/// What one caller works with. It may go to another thread, and is used by one at a time.
///
/// ```
/// use cqs::pass::{Semaphore, TryError};
///
/// let semaphore = Semaphore::new(Default::default()).unwrap();
/// let (mut one, mut two) = (semaphore.pass().unwrap(), semaphore.pass().unwrap());
/// let permit = one.try_acquire().unwrap();
/// assert_eq!(two.try_acquire().unwrap_err(), TryError::NoneFree);
/// permit.release();
/// assert!(two.try_acquire().is_ok());
/// ```
#[derive(Debug)]
pub struct SemaphorePass {
    shared: Arc<Shared>,
    number: u32,
    has: Has,
}

/// What the pass has lent, or what of it was forgotten.
#[derive(Clone, Copy, Debug)]
enum Has {
    Nothing,
    Wait(u64),
    Permit,
    /// Of a synchronous semaphore alone: the rest of a release.
    Owed,
}

/// What a pass came to by an acquire.
pub(super) enum Came {
    Now,
    Later(u64),
    /// Of a synchronous semaphore alone.
    Broke(u64),
}

/// What became of an acquire.
#[derive(Debug)]
#[must_use = "a wait that isn't kept leaves the line at once"]
pub enum Acquired<'a> {
    /// The caller has a permit.
    Now(Permit<'a>),
    /// It waits in line.
    Later(Wait<'a>),
}

/// A permit. It is given back when it is dropped.
#[derive(Debug)]
#[must_use = "a permit that isn't kept is given back at once"]
pub struct Permit<'a> {
    pass: &'a mut SemaphorePass,
}

impl SemaphorePass {
    pub(crate) fn of(shared: Arc<Shared>, number: u32) -> SemaphorePass {
        SemaphorePass { shared, number, has: Has::Nothing }
    }

    /// Looks at its wait, and says whether the permit has come.
    pub(crate) fn look(&mut self, wait: u64) -> bool {
        let answer = self.shared.call(ffi::DO_POLL, self.number, wait);
        match answer.answer {
            ffi::GRANTED => {
                self.has = Has::Permit;
                true
            }
            ffi::PENDING => false,
            other => unreachable!("a poll was answered {other}"),
        }
    }

    /// Ends its wait, and says whether the permit had come before.
    pub(crate) fn end(&mut self, wait: u64) -> bool {
        self.has = Has::Nothing;
        let answer = self.shared.call(ffi::DO_CANCEL, self.number, wait);
        match answer.answer {
            ffi::TOO_LATE => {
                self.has = Has::Permit;
                true
            }
            ffi::CANCELLED => false,
            ffi::CANCELLED_OWING => {
                self.shared.finish_all(self.number);
                false
            }
            other => unreachable!("a cancel was answered {other}"),
        }
    }

    /// What was forgotten, by `mem::forget`, is ended.
    pub(super) fn end_forgotten(&mut self) {
        if let Has::Wait(wait) = self.has {
            self.end(wait);
        }
        if let Has::Owed = self.has {
            let is_gone = self.shared.finish_all(self.number);
            self.has = if is_gone { Has::Nothing } else { Has::Permit };
        }
        if let Has::Permit = self.has {
            self.release();
        }
    }

    /// One acquire, after what was forgotten.
    pub(super) fn enter(&mut self) -> Result<Came, WaitError> {
        self.end_forgotten();
        if let Has::Permit = self.has {
            // Its own permit couldn't be given back, so no slot is free to wait in.
            return Err(WaitError::Crowded);
        }
        let answer = self.shared.call(ffi::DO_ENTER, self.number, 0);
        match answer.answer {
            ffi::NOW => {
                self.has = Has::Permit;
                Ok(Came::Now)
            }
            ffi::LATER => {
                let number = answer.number as u64;
                self.has = Has::Wait(number);
                Ok(Came::Later(number))
            }
            ffi::BROKE => Ok(Came::Broke(answer.number as u64)),
            ffi::WORN => Err(WaitError::Worn),
            ffi::CROWDED => Err(WaitError::Crowded),
            other => unreachable!("an acquire was answered {other}"),
        }
    }

    /// One try, after what was forgotten.
    pub(super) fn take_free(&mut self) -> Result<(), TryError> {
        self.end_forgotten();
        if let Has::Permit = self.has {
            return Err(TryError::NoneFree);
        }
        let answer = self.shared.call(ffi::DO_TRY, self.number, 0);
        match answer.answer {
            ffi::GOT => {
                self.has = Has::Permit;
                Ok(())
            }
            ffi::NONE_FREE => Err(TryError::NoneFree),
            ffi::CONTENDED => Err(TryError::Contended(answer.number)),
            other => unreachable!("a try was answered {other}"),
        }
    }

    /// One release of its permit, or one finish of what it owes.
    pub(super) fn give(&mut self, what: u32) -> ffi::Answer {
        let answer = self.shared.call(what, self.number, 0);
        self.has = match answer.answer {
            ffi::FREED | ffi::SENT | ffi::VOID => Has::Nothing,
            ffi::BROKE | ffi::CROWDED => Has::Permit,
            ffi::HANDLING | ffi::UNDER => Has::Owed,
            other => unreachable!("a release was answered {other}"),
        };
        answer
    }

    /// A permit where one is free, or else a wait for one.
    pub fn acquire(&mut self) -> Result<Acquired<'_>, WaitError> {
        match self.enter()? {
            Came::Now => Ok(Acquired::Now(Permit { pass: self })),
            Came::Later(number) => Ok(Acquired::Later(Wait::of(self, number))),
            Came::Broke(_) => unreachable!("no permit of a plain semaphore is taken back"),
        }
    }

    /// A permit where one is free. It never waits.
    pub fn try_acquire(&mut self) -> Result<Permit<'_>, TryError> {
        self.take_free()?;
        Ok(Permit { pass: self })
    }

    /// Acquires, and lets other threads run between two looks at its wait.
    pub fn acquire_yielding(&mut self) -> Result<Permit<'_>, WaitError> {
        match self.acquire()? {
            Acquired::Now(permit) => Ok(permit),
            Acquired::Later(mut wait) => loop {
                match wait.poll() {
                    Ok(permit) => return Ok(permit),
                    Err(again) => {
                        wait = again;
                        std::thread::yield_now();
                    }
                }
            },
        }
    }

    /// The state: the free permits, less those who wait with none on its way.
    pub fn state(&mut self) -> i64 {
        self.end_forgotten();
        let answer = self.shared.call(ffi::DO_STATE, self.number, 0);
        assert_eq!(answer.answer, ffi::STATE);
        answer.number
    }

    /// Gives its permit back. Where there is no slot for that, it is done by the next call with this
    /// pass, or once nobody has the pass.
    pub(super) fn release(&mut self) {
        if self.shared.leave(self.number, 0) {
            self.has = Has::Nothing;
        }
    }
}

impl<'a> Permit<'a> {
    pub(crate) fn of(pass: &'a mut SemaphorePass) -> Permit<'a> {
        Permit { pass }
    }

    /// Gives it back, and hands out the pass.
    pub fn release(self) -> &'a mut SemaphorePass {
        let this = ManuallyDrop::new(self);
        // SAFETY: `this` is not dropped, and its pass is read once.
        let pass = unsafe { ptr::read(&this.pass) };
        pass.release();
        pass
    }
}

impl Drop for Permit<'_> {
    fn drop(&mut self) {
        self.pass.release();
    }
}

impl Drop for SemaphorePass {
    fn drop(&mut self) {
        self.end_forgotten();
        self.shared.give_up(self.number, matches!(self.has, Has::Permit).then_some(0));
    }
}
