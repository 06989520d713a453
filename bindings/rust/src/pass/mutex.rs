//! A mutex around a value: one permit of a semaphore, and the value, which its guard lends.

use crate::errors::{MakeError, WaitError};
use crate::ffi;
use crate::pass::shared::Shared;
use crate::pass::{PassError, TryError};
use crate::primitive::MOST_LIMIT;
use std::cell::UnsafeCell;
use std::fmt;
use std::marker::PhantomData;
use std::mem::ManuallyDrop;
use std::ops::{Deref, DerefMut};
use std::ptr;
use std::sync::Arc;

/// How a mutex is made.
#[derive(Clone, Copy, Debug, PartialEq, Eq)]
pub struct MutexConfig {
    /// How many passes there may be at once, from 1 to 31.
    pub passes: u32,
    /// How many waits may be drawn in all, from 1 to 68,719,476,736.
    pub limit: u64,
}

impl Default for MutexConfig {
    /// As many passes and waits as there may be.
    fn default() -> MutexConfig {
        MutexConfig { passes: 31, limit: MOST_LIMIT }
    }
}

/// The mutex and its value.
struct Held<T> {
    shared: Shared,
    value: UnsafeCell<T>,
}

// SAFETY: the value is lent by a guard alone, and its pass has the only permit. The library's steps
// are sequentially consistent: who has the permit sees what was written before it was given back.
unsafe impl<T: Send> Sync for Held<T> {}

/// A fair mutex around a value. Clones are the same mutex.
///
/// ```
/// use cqs::pass::{LockEnd, Locked, Mutex};
///
/// let mutex = Mutex::new(1, Default::default()).unwrap();
/// let (mut one, mut two) = (mutex.pass().unwrap(), mutex.pass().unwrap());
/// let Ok(Locked::Now(mut guard)) = one.lock() else { panic!("it is free") };
/// let Ok(Locked::Later(wait)) = two.lock() else { panic!("it is locked") };
/// *guard += 1;
/// guard.unlock();
/// let LockEnd::TooLate(guard) = wait.cancel() else { panic!("it had come before") };
/// assert_eq!(*guard, 2);
/// ```
pub struct Mutex<T> {
    held: Arc<Held<T>>,
}

impl<T> Clone for Mutex<T> {
    fn clone(&self) -> Mutex<T> {
        Mutex { held: self.held.clone() }
    }
}

impl<T> Mutex<T> {
    /// A mutex that is free.
    pub fn new(value: T, config: MutexConfig) -> Result<Mutex<T>, MakeError> {
        let shared = Shared::new(ffi::KIND_SEMAPHORE, 1, config.passes, config.limit)?;
        Ok(Mutex { held: Arc::new(Held { shared, value: UnsafeCell::new(value) }) })
    }

    /// A pass, for one caller: one that another caller gave up, or a new one.
    pub fn pass(&self) -> Result<MutexPass<T>, PassError> {
        let number = self.held.shared.pass()?;
        Ok(MutexPass { held: self.held.clone(), number, has: Has::Nothing })
    }
}

/// What one caller works with. It may go to another thread, and is used by one at a time.
pub struct MutexPass<T> {
    held: Arc<Held<T>>,
    number: u32,
    has: Has,
}

/// What the pass has lent, or what of it was forgotten.
#[derive(Clone, Copy, Debug)]
enum Has {
    Nothing,
    Wait(u64),
    Mutex,
}

/// What became of a lock.
#[derive(Debug)]
#[must_use = "a wait that isn't kept leaves the line at once"]
pub enum Locked<'a, T> {
    /// The caller has the mutex.
    Now(MutexGuard<'a, T>),
    /// It waits in line.
    Later(LockWait<'a, T>),
}

/// What became of a wait that was given up.
#[derive(Debug)]
pub enum LockEnd<'a, T> {
    /// It has left the line; here is its pass.
    Gone(&'a mut MutexPass<T>),
    /// The mutex had come before.
    TooLate(MutexGuard<'a, T>),
}

impl<T> MutexPass<T> {
    fn call(&self, what: u32, number: u64) -> ffi::Answer {
        self.held.shared.call(what, self.number, number)
    }

    /// The mutex where it is free, or else a wait for it.
    pub fn lock(&mut self) -> Result<Locked<'_, T>, WaitError> {
        self.end_forgotten();
        if let Has::Mutex = self.has {
            // It couldn't be given back, so no slot is free to wait in.
            return Err(WaitError::Crowded);
        }
        let answer = self.call(ffi::DO_ENTER, 0);
        match answer.answer {
            ffi::NOW => Ok(Locked::Now(MutexGuard::of(self))),
            ffi::LATER => {
                let number = answer.number as u64;
                self.has = Has::Wait(number);
                Ok(Locked::Later(LockWait { pass: self, number }))
            }
            ffi::WORN => Err(WaitError::Worn),
            ffi::CROWDED => Err(WaitError::Crowded),
            other => unreachable!("a lock was answered {other}"),
        }
    }

    /// The mutex where it is free. It never waits.
    pub fn try_lock(&mut self) -> Result<MutexGuard<'_, T>, TryError> {
        self.end_forgotten();
        if let Has::Mutex = self.has {
            return Err(TryError::NoneFree);
        }
        let answer = self.call(ffi::DO_TRY, 0);
        match answer.answer {
            ffi::GOT => Ok(MutexGuard::of(self)),
            ffi::NONE_FREE => Err(TryError::NoneFree),
            ffi::CONTENDED => Err(TryError::Contended(answer.number)),
            other => unreachable!("a try was answered {other}"),
        }
    }

    /// Locks, and lets other threads run between two looks at its wait.
    pub fn lock_yielding(&mut self) -> Result<MutexGuard<'_, T>, WaitError> {
        match self.lock()? {
            Locked::Now(guard) => Ok(guard),
            Locked::Later(mut wait) => loop {
                match wait.poll() {
                    Ok(guard) => return Ok(guard),
                    Err(again) => {
                        wait = again;
                        std::thread::yield_now();
                    }
                }
            },
        }
    }

    /// The state: 1 where the mutex is free, and else less those who wait with it not on its way.
    pub fn state(&mut self) -> i64 {
        self.end_forgotten();
        let answer = self.call(ffi::DO_STATE, 0);
        assert_eq!(answer.answer, ffi::STATE);
        answer.number
    }

    /// What was forgotten, by `mem::forget`, is ended. A guard that was forgotten can't lend the
    /// value any more, since the pass isn't borrowed.
    fn end_forgotten(&mut self) {
        if let Has::Wait(wait) = self.has {
            self.end(wait);
        }
        if let Has::Mutex = self.has {
            self.unlock();
        }
    }

    /// Ends its wait, and says whether the mutex had come before.
    fn end(&mut self, wait: u64) -> bool {
        self.has = Has::Nothing;
        match self.call(ffi::DO_CANCEL, wait).answer {
            ffi::TOO_LATE => {
                self.has = Has::Mutex;
                true
            }
            ffi::CANCELLED => false,
            ffi::CANCELLED_OWING => {
                self.held.shared.finish_all(self.number);
                false
            }
            other => unreachable!("a cancel was answered {other}"),
        }
    }

    /// Gives the mutex back. Where there is no slot for that, it is done by the next call with this
    /// pass, or once nobody has the pass.
    fn unlock(&mut self) {
        if self.held.shared.leave(self.number, 0) {
            self.has = Has::Nothing;
        }
    }
}

impl<T> Drop for MutexPass<T> {
    fn drop(&mut self) {
        self.end_forgotten();
        self.held.shared.give_up(self.number, matches!(self.has, Has::Mutex).then_some(0));
    }
}

/// The mutex, and its value. It is given back when it is dropped.
#[must_use = "a guard that isn't kept unlocks at once"]
pub struct MutexGuard<'a, T> {
    pass: &'a mut MutexPass<T>,
    /// It may be shared between threads where its value may.
    lent: PhantomData<&'a mut T>,
}

impl<'a, T> MutexGuard<'a, T> {
    fn of(pass: &'a mut MutexPass<T>) -> MutexGuard<'a, T> {
        pass.has = Has::Mutex;
        MutexGuard { pass, lent: PhantomData }
    }

    /// Gives it back, and hands out the pass.
    pub fn unlock(self) -> &'a mut MutexPass<T> {
        let this = ManuallyDrop::new(self);
        // SAFETY: `this` is not dropped, and its pass is read once.
        let pass = unsafe { ptr::read(&this.pass) };
        pass.unlock();
        pass
    }
}

impl<T> Deref for MutexGuard<'_, T> {
    type Target = T;

    fn deref(&self) -> &T {
        // SAFETY: the guard's pass has the only permit, and no other guard is there.
        unsafe { &*self.pass.held.value.get() }
    }
}

impl<T> DerefMut for MutexGuard<'_, T> {
    fn deref_mut(&mut self) -> &mut T {
        // SAFETY: as above.
        unsafe { &mut *self.pass.held.value.get() }
    }
}

impl<T> Drop for MutexGuard<'_, T> {
    fn drop(&mut self) {
        self.pass.unlock();
    }
}

/// A wait in line. It leaves the line when it is dropped.
#[must_use = "a wait that isn't kept leaves the line at once"]
pub struct LockWait<'a, T> {
    pass: &'a mut MutexPass<T>,
    number: u64,
}

impl<'a, T> LockWait<'a, T> {
    /// The number of the wait.
    pub fn number(&self) -> u64 {
        self.number
    }

    /// The pass, of which this wait is no more.
    fn into_pass(self) -> &'a mut MutexPass<T> {
        let this = ManuallyDrop::new(self);
        // SAFETY: `this` is not dropped, and its pass is read once.
        unsafe { ptr::read(&this.pass) }
    }

    /// Looks whether the mutex has come.
    pub fn poll(self) -> Result<MutexGuard<'a, T>, LockWait<'a, T>> {
        match self.pass.call(ffi::DO_POLL, self.number).answer {
            ffi::GRANTED => Ok(MutexGuard::of(self.into_pass())),
            ffi::PENDING => Err(self),
            other => unreachable!("a poll was answered {other}"),
        }
    }

    /// Gives the wait up.
    pub fn cancel(self) -> LockEnd<'a, T> {
        let number = self.number;
        let pass = self.into_pass();
        if pass.end(number) { LockEnd::TooLate(MutexGuard::of(pass)) } else { LockEnd::Gone(pass) }
    }
}

impl<T> Drop for LockWait<'_, T> {
    fn drop(&mut self) {
        if self.pass.end(self.number) {
            self.pass.unlock();
        }
    }
}

impl<T> fmt::Debug for Mutex<T> {
    fn fmt(&self, f: &mut fmt::Formatter<'_>) -> fmt::Result {
        f.debug_struct("Mutex").finish_non_exhaustive()
    }
}

impl<T> fmt::Debug for MutexPass<T> {
    fn fmt(&self, f: &mut fmt::Formatter<'_>) -> fmt::Result {
        let mut shown = f.debug_struct("MutexPass");
        shown.field("number", &self.number).field("has", &self.has).finish_non_exhaustive()
    }
}

impl<T: fmt::Debug> fmt::Debug for MutexGuard<'_, T> {
    fn fmt(&self, f: &mut fmt::Formatter<'_>) -> fmt::Result {
        (**self).fmt(f)
    }
}

impl<T> fmt::Debug for LockWait<'_, T> {
    fn fmt(&self, f: &mut fmt::Formatter<'_>) -> fmt::Result {
        f.debug_struct("LockWait").field("number", &self.number).finish_non_exhaustive()
    }
}
