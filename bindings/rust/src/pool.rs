//! A pool of values: who takes one has it until it is put back.

use crate::errors::{MakeError, NoneFree, TimeoutError, WaitError, expect_in};
use crate::ffi;
use crate::line::{Coming, Held, Line};
use crate::primitive::{MOST_LIMIT, MOST_PASSES, Primitive, WAITERS, room_of};
use crate::spares::Elements;
use std::cell::UnsafeCell;
use std::fmt;
use std::future::Future;
use std::marker::PhantomData;
use std::ops::{Deref, DerefMut};
use std::pin::Pin;
use std::sync::Arc;
use std::task::{Context, Poll};
use std::time::Duration;

/// How a [`Pool`] is made.
///
/// ```
/// use cqs::{Pool, PoolConfig};
///
/// let config = PoolConfig { waiters: 100, ..PoolConfig::default() };
/// let pool = Pool::with_config(["a", "b"], config).unwrap();
/// assert_eq!(pool.size(), 2);
/// ```
#[derive(Clone, Copy, Debug, PartialEq, Eq)]
pub struct PoolConfig {
    /// How many waits may be drawn in all, from 1 to 68,719,476,736: one by each caller who finds no
    /// value at hand, and one by the first who takes each value. It costs nothing.
    pub limit: u64,
    /// For how many who wait at once there is room, from 1 to 1,048,576. Each takes 20 bytes.
    pub waiters: usize,
}

impl Default for PoolConfig {
    /// As many waits as may be drawn, and room for 4,096 who wait at once.
    fn default() -> PoolConfig {
        PoolConfig { limit: MOST_LIMIT, waiters: WAITERS }
    }
}

/// A fair pool of values, for any number of threads and tasks.
///
/// Who finds no value stands in line. A value that is taken is its taker's alone until its item is
/// dropped, and the next one finds it as it was left.
///
/// # Examples
///
/// ```
/// use cqs::Pool;
/// use std::thread;
///
/// let buffers = Pool::new(vec![String::new(), String::new()]);
/// thread::scope(|scope| {
///     for thread in 0..4 {
///         let buffers = &buffers;
///         scope.spawn(move || {
///             let mut buffer = buffers.take_blocking().expect("it isn't worn");
///             buffer.push_str(&thread.to_string());
///         });
///     }
/// });
/// let all: String = buffers.into_values().concat();
/// assert_eq!(all.len(), 4);
/// ```
///
/// ```
/// use cqs::{Pool, WaitError};
///
/// async fn ask(connections: &Pool<u32>) -> Result<(), WaitError> {
///     let mut connection = connections.take().await?;
///     *connection += 1;
///     Ok(())
/// }
/// # use std::future::Future;
/// # let pool = Pool::new(vec![0]);
/// # let mut cx = std::task::Context::from_waker(std::task::Waker::noop());
/// # assert!(std::pin::pin!(ask(&pool)).poll(&mut cx).is_ready());
/// ```
pub struct Pool<T> {
    line: Line<Elements>,
    /// The values, each under the number of an element.
    values: Box<[UnsafeCell<T>]>,
}

// SAFETY: a value is lent by an item alone, which has the element of its number, and nobody else has
// it. Who takes the element sees what was written before it was put back: the steps of the library
// and those of `Line` are sequentially consistent.
unsafe impl<T: Send> Sync for Pool<T> {}

impl<T> Pool<T> {
    /// A pool of these values, all of them free, with room for 4,096 who wait at once.
    ///
    /// # Panics
    ///
    /// Where there are no values or more than 4,096, or no memory: [`Pool::with_config`] says so.
    #[must_use]
    #[track_caller]
    pub fn new(values: impl IntoIterator<Item = T>) -> Pool<T> {
        let made = Pool::with_config(values, PoolConfig::default());
        made.unwrap_or_else(|error| panic!("no pool: {error}"))
    }

    /// A pool of these values, from 1 to 4,096 of them, all of them free. Where none can be made,
    /// they are dropped.
    pub fn with_config(
        values: impl IntoIterator<Item = T>,
        config: PoolConfig,
    ) -> Result<Pool<T>, MakeError> {
        let PoolConfig { limit, waiters } = config;
        let values: Box<[UnsafeCell<T>]> = values.into_iter().map(UnsafeCell::new).collect();
        expect_in(1..=4096, "values", values.len() as u64)?;
        let size = values.len() as u32;
        let (kind, room) = (ffi::KIND_POOL, room_of(waiters)?);
        let primitive = Primitive::new(kind, size, MOST_PASSES, limit, room)?;
        let line = Line::new(primitive, Elements::new(values.len()), size);
        Ok(Pool { line, values })
    }

    fn item(&self, held: Held) -> Item<'_, T> {
        Item { pool: self, held, lent: PhantomData }
    }

    fn owned_item(self: Arc<Self>, held: Held) -> OwnedItem<T> {
        OwnedItem { pool: self, held, lent: PhantomData }
    }

    /// A value, as soon as one comes. Dropped before, the future leaves the line.
    #[inline]
    pub fn take(&self) -> Take<'_, T> {
        Take { pool: self, coming: self.line.coming() }
    }

    /// A value. The thread sleeps until one comes.
    pub fn take_blocking(&self) -> Result<Item<'_, T>, WaitError> {
        self.line.take_blocking().map(|held| self.item(held))
    }

    /// A value. The thread sleeps until one comes, or until the time is over.
    pub fn take_timeout(&self, time: Duration) -> Result<Item<'_, T>, TimeoutError> {
        self.line.take_within(time).map(|held| self.item(held))
    }

    /// A value where one is free. It never waits. It may miss one that is put back just now, and it
    /// seldom draws a wait.
    ///
    /// ```
    /// let pool = cqs::Pool::new(["a", "b"]);
    /// let (first, second) = (pool.try_take().unwrap(), pool.try_take().unwrap());
    /// assert_ne!(*first, *second);
    /// assert!(pool.try_take().is_err());
    /// ```
    pub fn try_take(&self) -> Result<Item<'_, T>, NoneFree> {
        self.line.try_take().map(|held| self.item(held)).ok_or(NoneFree)
    }

    /// As [`Pool::take`], with an item that borrows nothing.
    pub async fn take_owned(self: Arc<Self>) -> Result<OwnedItem<T>, WaitError> {
        let held = self.line.coming().await?;
        Ok(self.owned_item(held))
    }

    /// As [`Pool::take_blocking`], with an item that borrows nothing.
    pub fn take_owned_blocking(self: Arc<Self>) -> Result<OwnedItem<T>, WaitError> {
        let held = self.line.take_blocking()?;
        Ok(self.owned_item(held))
    }

    /// As [`Pool::take_timeout`], with an item that borrows nothing.
    pub fn take_owned_timeout(
        self: Arc<Self>,
        time: Duration,
    ) -> Result<OwnedItem<T>, TimeoutError> {
        let held = self.line.take_within(time)?;
        Ok(self.owned_item(held))
    }

    /// As [`Pool::try_take`], with an item that borrows nothing.
    pub fn try_take_owned(self: Arc<Self>) -> Result<OwnedItem<T>, NoneFree> {
        let held = self.line.try_take().ok_or(NoneFree)?;
        Ok(self.owned_item(held))
    }

    /// How many values there are, free or taken.
    #[must_use]
    pub fn size(&self) -> usize {
        self.values.len()
    }

    /// The values, in the order in which they were given: nobody has one.
    pub fn iter_mut(&mut self) -> impl Iterator<Item = &mut T> {
        self.values.iter_mut().map(UnsafeCell::get_mut)
    }

    /// The values, in the order in which they were given.
    #[must_use]
    pub fn into_values(self) -> Vec<T> {
        self.values.into_vec().into_iter().map(UnsafeCell::into_inner).collect()
    }
}

impl<T> fmt::Debug for Pool<T> {
    fn fmt(&self, f: &mut fmt::Formatter<'_>) -> fmt::Result {
        f.debug_struct("Pool").field("size", &self.size()).finish_non_exhaustive()
    }
}

/// The future of [`Pool::take`]. Dropped, it leaves the line.
///
/// ```
/// # async fn add(pool: &cqs::Pool<u64>) -> Result<(), cqs::WaitError> {
/// let take: cqs::Take<u64> = pool.take();
/// *take.await? += 1;
/// # Ok(())
/// # }
/// ```
#[must_use = "futures do nothing unless they are awaited"]
pub struct Take<'a, T> {
    pool: &'a Pool<T>,
    coming: Coming<'a, Elements>,
}

impl<'a, T> Future for Take<'a, T> {
    type Output = Result<Item<'a, T>, WaitError>;

    #[inline]
    fn poll(mut self: Pin<&mut Self>, cx: &mut Context<'_>) -> Poll<Self::Output> {
        let pool = self.pool;
        let came = Pin::new(&mut self.coming).poll(cx);
        came.map_ok(|held| pool.item(held))
    }
}

impl<T> fmt::Debug for Take<'_, T> {
    fn fmt(&self, f: &mut fmt::Formatter<'_>) -> fmt::Result {
        f.debug_struct("Take").finish_non_exhaustive()
    }
}

/// A value that was taken from a [`Pool`]. It is put back when it is dropped, also by a panic.
///
/// ```
/// let pool = cqs::Pool::new([10]);
/// let mut item = pool.take_blocking().unwrap();
/// *item += 1;
/// item.put();
/// assert_eq!(pool.into_values(), [11]);
/// ```
#[must_use = "an item that isn't kept is put back at once"]
pub struct Item<'a, T> {
    pool: &'a Pool<T>,
    held: Held,
    /// It may be shared between threads where its value may.
    lent: PhantomData<&'a mut T>,
}

impl<T> Item<'_, T> {
    /// Which of the values it is, by its place among those that the pool was made of.
    #[must_use]
    pub fn index(&self) -> usize {
        self.held.element as usize
    }

    /// Puts it back: the same as dropping it.
    pub fn put(self) {}
}

impl<T> Deref for Item<'_, T> {
    type Target = T;

    fn deref(&self) -> &T {
        // SAFETY: the item has this element, and no other item has it.
        unsafe { &*self.pool.values[self.index()].get() }
    }
}

impl<T> DerefMut for Item<'_, T> {
    fn deref_mut(&mut self) -> &mut T {
        // SAFETY: as above.
        unsafe { &mut *self.pool.values[self.index()].get() }
    }
}

impl<T> Drop for Item<'_, T> {
    fn drop(&mut self) {
        self.pool.line.give(self.held);
    }
}

impl<T: fmt::Debug> fmt::Debug for Item<'_, T> {
    fn fmt(&self, f: &mut fmt::Formatter<'_>) -> fmt::Result {
        (**self).fmt(f)
    }
}

/// A value that was taken from a [`Pool`] that is shared by an [`Arc`]. It is put back when it is
/// dropped, also by a panic.
///
/// ```
/// use cqs::Pool;
/// use std::sync::Arc;
///
/// let pool = Arc::new(Pool::new(["a"]));
/// let item = pool.clone().take_owned_blocking().unwrap();
/// assert_eq!((*item, item.index()), ("a", 0));
/// std::thread::spawn(move || item.put()).join().unwrap();
/// assert!(pool.try_take().is_ok());
/// ```
#[must_use = "an item that isn't kept is put back at once"]
pub struct OwnedItem<T> {
    pool: Arc<Pool<T>>,
    held: Held,
    /// It may be shared between threads where its value may.
    lent: PhantomData<T>,
}

impl<T> OwnedItem<T> {
    /// The pool that it is of.
    #[must_use]
    pub fn pool(&self) -> &Arc<Pool<T>> {
        &self.pool
    }

    /// Which of the values it is, by its place among those that the pool was made of.
    #[must_use]
    pub fn index(&self) -> usize {
        self.held.element as usize
    }

    /// Puts it back: the same as dropping it.
    pub fn put(self) {}
}

impl<T> Deref for OwnedItem<T> {
    type Target = T;

    fn deref(&self) -> &T {
        // SAFETY: the item has this element, and no other item has it.
        unsafe { &*self.pool.values[self.index()].get() }
    }
}

impl<T> DerefMut for OwnedItem<T> {
    fn deref_mut(&mut self) -> &mut T {
        // SAFETY: as above.
        unsafe { &mut *self.pool.values[self.index()].get() }
    }
}

impl<T> Drop for OwnedItem<T> {
    fn drop(&mut self) {
        self.pool.line.give(self.held);
    }
}

impl<T: fmt::Debug> fmt::Debug for OwnedItem<T> {
    fn fmt(&self, f: &mut fmt::Formatter<'_>) -> fmt::Result {
        (**self).fmt(f)
    }
}
