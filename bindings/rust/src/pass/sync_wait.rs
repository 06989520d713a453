//! A wait in line for a permit of a synchronous semaphore.

use crate::pass::{SyncPermit, SyncSemaphorePass};
use std::mem::ManuallyDrop;
use std::ptr;

/// A wait in line. It leaves the line when it is dropped.
#[derive(Debug)]
#[must_use = "a wait that isn't kept leaves the line at once"]
pub struct SyncWait<'a> {
    pass: &'a mut SyncSemaphorePass,
    number: u64,
}

/// What became of a wait that was given up.
#[derive(Debug)]
pub enum SyncCancelled<'a> {
    /// It has left the line; here is its pass.
    Gone(&'a mut SyncSemaphorePass),
    /// The permit had come before.
    TooLate(SyncPermit<'a>),
}

impl<'a> SyncWait<'a> {
    pub(super) fn of(pass: &'a mut SyncSemaphorePass, number: u64) -> SyncWait<'a> {
        SyncWait { pass, number }
    }

    /// The number of the wait.
    pub fn number(&self) -> u64 {
        self.number
    }

    /// The pass, of which this wait is no more.
    fn into_pass(self) -> &'a mut SyncSemaphorePass {
        let this = ManuallyDrop::new(self);
        // SAFETY: `this` is not dropped, and its pass is read once.
        unsafe { ptr::read(&this.pass) }
    }

    /// Looks whether the permit has come.
    pub fn poll(self) -> Result<SyncPermit<'a>, SyncWait<'a>> {
        if self.pass.pass.look(self.number) {
            Ok(SyncPermit::of(self.into_pass()))
        } else {
            Err(self)
        }
    }

    /// Looks until the permit has come, and lets other threads run between two looks.
    pub(super) fn poll_yielding(mut self) -> SyncPermit<'a> {
        loop {
            match self.poll() {
                Ok(permit) => return permit,
                Err(again) => {
                    self = again;
                    std::thread::yield_now();
                }
            }
        }
    }

    /// Gives the wait up.
    pub fn cancel(self) -> SyncCancelled<'a> {
        let number = self.number;
        let pass = self.into_pass();
        if pass.pass.end(number) {
            SyncCancelled::TooLate(SyncPermit::of(pass))
        } else {
            SyncCancelled::Gone(pass)
        }
    }
}

impl Drop for SyncWait<'_> {
    fn drop(&mut self) {
        if self.pass.pass.end(self.number) {
            drop(SyncPermit::of(self.pass));
        }
    }
}
