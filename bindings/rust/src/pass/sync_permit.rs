//! A pass of a synchronous semaphore, and the permit that it has.

use crate::errors::WaitError;
use crate::ffi;
use crate::pass::permit::Came;
use crate::pass::{SemaphorePass, SyncReleased, SyncWait, TryError};
use std::mem::ManuallyDrop;
use std::ptr;

/// What one caller works with. It may go to another thread, and is used by one at a time.
///
/// ```
/// use cqs::pass::{SyncPermit, SyncReleased, SyncSemaphore, SyncSemaphorePass};
///
/// /// Gives the permit to whoever comes, and says how often it came back.
/// fn give(permit: SyncPermit<'_>) -> u32 {
///     let (mut released, mut came_back) = (permit.release(), 0);
///     loop {
///         released = match released {
///             SyncReleased::Broke(_, permit) => {
///                 came_back += 1;
///                 permit.release()
///             }
///             SyncReleased::Handling(_, owed) | SyncReleased::Under(owed) => owed.finish(),
///             SyncReleased::Crowded(permit) => permit.release(),
///             SyncReleased::Freed(_) | SyncReleased::Sent(..) | SyncReleased::Void(..) => {
///                 return came_back;
///             }
///         };
///         std::thread::yield_now();
///     }
/// }
///
/// let semaphore = SyncSemaphore::new(Default::default()).unwrap();
/// let mut pass = semaphore.pass().unwrap();
/// assert_eq!(give(pass.acquire_yielding().unwrap()), 0);
/// assert_eq!(pass.state(), 1);
/// ```
#[derive(Debug)]
pub struct SyncSemaphorePass {
    /// What it has is kept as that of any semaphore.
    pub(super) pass: SemaphorePass,
}

/// What became of an acquire.
#[derive(Debug)]
#[must_use = "a wait that isn't kept leaves the line at once"]
pub enum SyncAcquired<'a> {
    /// The caller has a permit.
    Now(SyncPermit<'a>),
    /// It waits in line.
    Later(SyncWait<'a>),
    /// A permit was held out under this number, and taken back before the caller came. It has none,
    /// and doesn't wait; here is its pass, to acquire again.
    Broke(u64, &'a mut SyncSemaphorePass),
}

/// A permit. Where it is dropped, it is given until it is gone, and nobody hears how often it came
/// back.
#[derive(Debug)]
#[must_use = "a permit that isn't kept is given back at once"]
pub struct SyncPermit<'a> {
    pass: &'a mut SyncSemaphorePass,
}

impl SyncSemaphorePass {
    pub(super) fn of(pass: SemaphorePass) -> SyncSemaphorePass {
        SyncSemaphorePass { pass }
    }

    /// A permit where one is free, or else a wait for one; or neither, where the permit for its
    /// number was taken back before.
    pub fn acquire(&mut self) -> Result<SyncAcquired<'_>, WaitError> {
        Ok(match self.pass.enter()? {
            Came::Now => SyncAcquired::Now(SyncPermit { pass: self }),
            Came::Later(number) => SyncAcquired::Later(SyncWait::of(self, number)),
            Came::Broke(number) => SyncAcquired::Broke(number, self),
        })
    }

    /// A permit where one is free. It never waits.
    pub fn try_acquire(&mut self) -> Result<SyncPermit<'_>, TryError> {
        self.pass.take_free()?;
        Ok(SyncPermit { pass: self })
    }

    /// Acquires, again where it was too late for its permit, and lets other threads run between two
    /// looks at its wait.
    pub fn acquire_yielding(&mut self) -> Result<SyncPermit<'_>, WaitError> {
        let mut pass = self;
        loop {
            match pass.acquire()? {
                SyncAcquired::Now(permit) => return Ok(permit),
                SyncAcquired::Later(wait) => return Ok(wait.poll_yielding()),
                SyncAcquired::Broke(_, again) => pass = again,
            }
        }
    }

    /// The state: the free permits, less those who wait with none on its way.
    pub fn state(&mut self) -> i64 {
        self.pass.state()
    }
}

impl<'a> SyncPermit<'a> {
    pub(super) fn of(pass: &'a mut SyncSemaphorePass) -> SyncPermit<'a> {
        SyncPermit { pass }
    }

    /// Gives it back, and says what became of it.
    pub fn release(self) -> SyncReleased<'a> {
        let this = ManuallyDrop::new(self);
        // SAFETY: `this` is not dropped, and its pass is read once.
        let pass = unsafe { ptr::read(&this.pass) };
        SyncReleased::by(ffi::DO_LEAVE, pass)
    }
}

impl Drop for SyncPermit<'_> {
    fn drop(&mut self) {
        self.pass.pass.release();
    }
}
