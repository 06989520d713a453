//! A pool of values: who takes one has it until it is put back.

use crate::errors::{MakeError, WaitError, expect_in};
use crate::ffi;
use crate::pass::PassError;
use crate::pass::shared::Shared;
use crate::primitive::MOST_LIMIT;
use std::cell::UnsafeCell;
use std::fmt;
use std::marker::PhantomData;
use std::mem::ManuallyDrop;
use std::ops::{Deref, DerefMut};
use std::ptr;
use std::sync::Arc;

/// How a pool is made.
#[derive(Clone, Copy, Debug, PartialEq, Eq)]
pub struct PoolConfig {
    /// How many passes there may be at once, from 1 to 31.
    pub passes: u32,
    /// How many takes there may be in all, from 1 to 68,719,476,736.
    pub limit: u64,
}

impl Default for PoolConfig {
    /// As many passes and takes as there may be.
    fn default() -> PoolConfig {
        PoolConfig { passes: 31, limit: MOST_LIMIT }
    }
}

/// The pool and its values, each under the number of an element.
struct Held<T> {
    shared: Shared,
    values: Box<[UnsafeCell<T>]>,
}

// SAFETY: a value is lent by an item alone, whose pass has the element of its number, and nobody
// else has it. The library's steps are sequentially consistent: who takes the element sees what was
// written before it was put back.
unsafe impl<T: Send> Sync for Held<T> {}

/// A fair pool of values. Clones are the same pool.
///
/// ```
/// use cqs::pass::{Pool, TakeEnd, Taken};
///
/// let pool = Pool::new(vec!["a"], Default::default()).unwrap();
/// let (mut one, mut two) = (pool.pass().unwrap(), pool.pass().unwrap());
/// let Ok(Taken::Now(item)) = one.take() else { panic!("it is free") };
/// assert_eq!((*item, item.number()), ("a", 0));
/// let Ok(Taken::Later(wait)) = two.take() else { panic!("it is taken") };
/// let two = match wait.cancel() {
///     TakeEnd::Gone(pass) => pass,
///     TakeEnd::TooLate(_) => panic!("it is taken"),
/// };
/// item.put();
/// assert!(two.take_yielding().is_ok());
/// ```
pub struct Pool<T> {
    held: Arc<Held<T>>,
}

impl<T> Clone for Pool<T> {
    fn clone(&self) -> Pool<T> {
        Pool { held: self.held.clone() }
    }
}

impl<T> Pool<T> {
    /// A pool of these values, from 1 to 4,096 of them, all of them free.
    pub fn new(values: Vec<T>, config: PoolConfig) -> Result<Pool<T>, MakeError> {
        expect_in(1..=4096, "values", values.len() as u64)?;
        let size = values.len() as u32;
        let shared = Shared::new(ffi::KIND_POOL, size, config.passes, config.limit)?;
        let values = values.into_iter().map(UnsafeCell::new).collect();
        Ok(Pool { held: Arc::new(Held { shared, values }) })
    }

    /// A pass, for one caller: one that another caller gave up, or a new one.
    pub fn pass(&self) -> Result<PoolPass<T>, PassError> {
        let number = self.held.shared.pass()?;
        Ok(PoolPass { held: self.held.clone(), number, wait: None, element: None })
    }
}

/// What one caller works with. It may go to another thread, and is used by one at a time.
pub struct PoolPass<T> {
    held: Arc<Held<T>>,
    number: u32,
    /// The wait that it has.
    wait: Option<u64>,
    /// The element that it has.
    element: Option<u32>,
}

/// What became of a take.
#[derive(Debug)]
#[must_use = "a wait that isn't kept leaves the line at once"]
pub enum Taken<'a, T> {
    /// The caller has a value.
    Now(Item<'a, T>),
    /// It waits in line.
    Later(TakeWait<'a, T>),
}

/// What became of a wait that was given up.
#[derive(Debug)]
pub enum TakeEnd<'a, T> {
    /// It has left the line; here is its pass.
    Gone(&'a mut PoolPass<T>),
    /// A value had come before.
    TooLate(Item<'a, T>),
}

impl<T> PoolPass<T> {
    fn call(&self, what: u32, number: u64) -> ffi::Answer {
        self.held.shared.call(what, self.number, number)
    }

    /// A value where one is free, or else a wait for one.
    pub fn take(&mut self) -> Result<Taken<'_, T>, WaitError> {
        self.end_forgotten();
        if self.element.is_some() {
            // It couldn't be put back, so no slot is free to wait in.
            return Err(WaitError::Crowded);
        }
        let answer = self.call(ffi::DO_ENTER, 0);
        match answer.answer {
            ffi::TOOK => Ok(Taken::Now(Item::of(self, answer.number as u32))),
            ffi::LATER => {
                let number = answer.number as u64;
                self.wait = Some(number);
                Ok(Taken::Later(TakeWait { pass: self, number }))
            }
            ffi::WORN => Err(WaitError::Worn),
            ffi::CROWDED => Err(WaitError::Crowded),
            other => unreachable!("a take was answered {other}"),
        }
    }

    /// Takes, and lets other threads run between two looks at its wait.
    pub fn take_yielding(&mut self) -> Result<Item<'_, T>, WaitError> {
        match self.take()? {
            Taken::Now(item) => Ok(item),
            Taken::Later(mut wait) => loop {
                match wait.poll() {
                    Ok(item) => return Ok(item),
                    Err(again) => {
                        wait = again;
                        std::thread::yield_now();
                    }
                }
            },
        }
    }

    /// Ends its wait, and says which element had come before, if one had.
    fn end(&mut self, wait: u64) -> Option<u32> {
        self.wait = None;
        let answer = self.call(ffi::DO_CANCEL, wait);
        match answer.answer {
            ffi::TOO_LATE => Some(answer.number as u32),
            ffi::CANCELLED => None,
            ffi::CANCELLED_OWING => {
                self.held.shared.finish_all(self.number);
                None
            }
            other => unreachable!("a cancel was answered {other}"),
        }
    }

    /// Puts the element that it has back. Where there is no slot for that, it is done by the next call
    /// with this pass, or once nobody has the pass.
    fn put(&mut self, element: u32) {
        let is_put = self.held.shared.leave(self.number, element);
        self.element = (!is_put).then_some(element);
    }

    /// What was forgotten, by `mem::forget`, is ended.
    fn end_forgotten(&mut self) {
        if let Some(wait) = self.wait {
            self.element = self.end(wait);
        }
        if let Some(element) = self.element {
            self.put(element);
        }
    }
}

impl<T> Drop for PoolPass<T> {
    fn drop(&mut self) {
        self.end_forgotten();
        self.held.shared.give_up(self.number, self.element);
    }
}

/// A value that was taken. It is put back when it is dropped.
#[must_use = "an item that isn't kept is put back at once"]
pub struct Item<'a, T> {
    pass: &'a mut PoolPass<T>,
    number: u32,
    /// It may be shared between threads where its value may.
    lent: PhantomData<&'a mut T>,
}

impl<'a, T> Item<'a, T> {
    fn of(pass: &'a mut PoolPass<T>, number: u32) -> Item<'a, T> {
        pass.element = Some(number);
        Item { pass, number, lent: PhantomData }
    }

    /// Which of the values it is, by its place among those that the pool was made of.
    pub fn number(&self) -> u32 {
        self.number
    }

    /// Puts it back, and hands out the pass.
    pub fn put(self) -> &'a mut PoolPass<T> {
        let this = ManuallyDrop::new(self);
        // SAFETY: `this` is not dropped, and its pass is read once.
        let pass = unsafe { ptr::read(&this.pass) };
        pass.put(this.number);
        pass
    }
}

impl<T> Deref for Item<'_, T> {
    type Target = T;

    fn deref(&self) -> &T {
        // SAFETY: the item's pass has this element, and no other item has it.
        unsafe { &*self.pass.held.values[self.number as usize].get() }
    }
}

impl<T> DerefMut for Item<'_, T> {
    fn deref_mut(&mut self) -> &mut T {
        // SAFETY: as above.
        unsafe { &mut *self.pass.held.values[self.number as usize].get() }
    }
}

impl<T> Drop for Item<'_, T> {
    fn drop(&mut self) {
        self.pass.put(self.number);
    }
}

/// A wait in line. It leaves the line when it is dropped.
#[must_use = "a wait that isn't kept leaves the line at once"]
pub struct TakeWait<'a, T> {
    pass: &'a mut PoolPass<T>,
    number: u64,
}

impl<'a, T> TakeWait<'a, T> {
    /// The number of the wait.
    pub fn number(&self) -> u64 {
        self.number
    }

    /// The pass, of which this wait is no more.
    fn into_pass(self) -> &'a mut PoolPass<T> {
        let this = ManuallyDrop::new(self);
        // SAFETY: `this` is not dropped, and its pass is read once.
        unsafe { ptr::read(&this.pass) }
    }

    /// Looks whether a value has come.
    pub fn poll(self) -> Result<Item<'a, T>, TakeWait<'a, T>> {
        let answer = self.pass.call(ffi::DO_POLL, self.number);
        match answer.answer {
            ffi::TOOK => {
                let pass = self.into_pass();
                pass.wait = None;
                Ok(Item::of(pass, answer.number as u32))
            }
            ffi::PENDING => Err(self),
            other => unreachable!("a poll was answered {other}"),
        }
    }

    /// Gives the wait up.
    pub fn cancel(self) -> TakeEnd<'a, T> {
        let number = self.number;
        let pass = self.into_pass();
        match pass.end(number) {
            Some(element) => TakeEnd::TooLate(Item::of(pass, element)),
            None => TakeEnd::Gone(pass),
        }
    }
}

impl<T> Drop for TakeWait<'_, T> {
    fn drop(&mut self) {
        if let Some(element) = self.pass.end(self.number) {
            self.pass.put(element);
        }
    }
}

impl<T> fmt::Debug for Pool<T> {
    fn fmt(&self, f: &mut fmt::Formatter<'_>) -> fmt::Result {
        f.debug_struct("Pool").finish_non_exhaustive()
    }
}

impl<T> fmt::Debug for PoolPass<T> {
    fn fmt(&self, f: &mut fmt::Formatter<'_>) -> fmt::Result {
        let mut shown = f.debug_struct("PoolPass");
        shown.field("number", &self.number).field("wait", &self.wait);
        shown.field("element", &self.element).finish_non_exhaustive()
    }
}

impl<T: fmt::Debug> fmt::Debug for Item<'_, T> {
    fn fmt(&self, f: &mut fmt::Formatter<'_>) -> fmt::Result {
        (**self).fmt(f)
    }
}

impl<T> fmt::Debug for TakeWait<'_, T> {
    fn fmt(&self, f: &mut fmt::Formatter<'_>) -> fmt::Result {
        f.debug_struct("TakeWait").field("number", &self.number).finish_non_exhaustive()
    }
}
