//! A wait in line for a permit.

use crate::pass::{Permit, SemaphorePass};
use std::mem::ManuallyDrop;
use std::ptr;

/// A wait in line. It leaves the line when it is dropped.
#[derive(Debug)]
#[must_use = "a wait that isn't kept leaves the line at once"]
pub struct Wait<'a> {
    pass: &'a mut SemaphorePass,
    number: u64,
}

/// What became of a wait that was given up.
#[derive(Debug)]
pub enum Cancelled<'a> {
    /// It has left the line; here is its pass.
    Gone(&'a mut SemaphorePass),
    /// The permit had come before.
    TooLate(Permit<'a>),
}

impl<'a> Wait<'a> {
    pub(crate) fn of(pass: &'a mut SemaphorePass, number: u64) -> Wait<'a> {
        Wait { pass, number }
    }

    /// The number of the wait.
    pub fn number(&self) -> u64 {
        self.number
    }

    /// The pass, of which this wait is no more.
    fn into_pass(self) -> &'a mut SemaphorePass {
        let this = ManuallyDrop::new(self);
        // SAFETY: `this` is not dropped, and its pass is read once.
        unsafe { ptr::read(&this.pass) }
    }

    /// Looks whether the permit has come.
    pub fn poll(self) -> Result<Permit<'a>, Wait<'a>> {
        if self.pass.look(self.number) { Ok(Permit::of(self.into_pass())) } else { Err(self) }
    }

    /// Gives the wait up.
    pub fn cancel(self) -> Cancelled<'a> {
        let number = self.number;
        let pass = self.into_pass();
        if pass.end(number) { Cancelled::TooLate(Permit::of(pass)) } else { Cancelled::Gone(pass) }
    }
}

impl Drop for Wait<'_> {
    fn drop(&mut self) {
        if self.pass.end(self.number) {
            drop(Permit::of(self.pass));
        }
    }
}
