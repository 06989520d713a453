//! A mutex around a value: a semaphore of one permit, and the value, which its guard lends.

use crate::errors::{MakeError, NoneFree, TimeoutError, WaitError};
use crate::line::{Coming, Held, Line};
use crate::primitive::{MOST_LIMIT, WAITERS};
use crate::semaphore::permits;
use crate::spares::Permits;
use std::cell::UnsafeCell;
use std::fmt;
use std::future::Future;
use std::marker::PhantomData;
use std::ops::{Deref, DerefMut};
use std::pin::Pin;
use std::sync::Arc;
use std::task::{Context, Poll};
use std::time::Duration;

/// How a [`Mutex`] is made.
///
/// ```
/// use cqs::{Mutex, MutexConfig};
///
/// let config = MutexConfig { waiters: 100, ..MutexConfig::default() };
/// let mutex = Mutex::with_config("a value", config).unwrap();
/// assert_eq!(*mutex.lock_blocking().unwrap(), "a value");
/// ```
#[derive(Clone, Copy, Debug, PartialEq, Eq)]
pub struct MutexConfig {
    /// How many waits may be drawn in all, from 1 to 68,719,476,736: one by each caller who finds it
    /// locked. It costs nothing.
    pub limit: u64,
    /// For how many who wait at once there is room, from 1 to 1,048,576. Each takes 20 bytes.
    pub waiters: usize,
}

impl Default for MutexConfig {
    /// As many waits as may be drawn, and room for 4,096 who wait at once.
    fn default() -> MutexConfig {
        MutexConfig { limit: MOST_LIMIT, waiters: WAITERS }
    }
}

/// A fair mutex around a value, for any number of threads and tasks.
///
/// A guard may go to another thread, and may be held over an `.await`.
///
/// **Nothing is poisoned.** A panic drops the guard, and so unlocks; what the panic left in the
/// value, the next one finds, as with the mutexes of tokio and of parking_lot.
///
/// It takes room for those who wait, by default some hundred KB: so it is made for what is shared by
/// many, and not for each of a million records. A [`MutexConfig`] with fewer `waiters` costs less.
///
/// # Examples
///
/// ```
/// use cqs::Mutex;
/// use std::thread;
///
/// let sum = Mutex::new(0);
/// thread::scope(|scope| {
///     for _ in 0..4 {
///         scope.spawn(|| *sum.lock_blocking().expect("it isn't worn") += 1);
///     }
/// });
/// assert_eq!(sum.into_inner(), 4);
/// ```
///
/// ```
/// use cqs::{Mutex, WaitError};
///
/// async fn add(sum: &Mutex<u64>) -> Result<(), WaitError> {
///     *sum.lock().await? += 1;
///     Ok(())
/// }
/// # use std::future::Future;
/// # let sum = Mutex::new(0);
/// # let mut cx = std::task::Context::from_waker(std::task::Waker::noop());
/// # assert!(std::pin::pin!(add(&sum)).poll(&mut cx).is_ready());
/// ```
pub struct Mutex<T: ?Sized> {
    line: Line<Permits>,
    value: UnsafeCell<T>,
}

// SAFETY: the value is lent by a guard alone, and its guard has the only permit. Who takes it sees
// what was written before it was given back: the steps of the library and those of `Line` are
// sequentially consistent.
unsafe impl<T: ?Sized + Send> Sync for Mutex<T> {}
// `Send` for `T: Send` comes of its fields.

impl<T> Mutex<T> {
    /// A mutex that is free, with room for 4,096 who wait at once.
    ///
    /// # Panics
    ///
    /// Where there is no memory: [`Mutex::with_config`] says so.
    #[must_use]
    #[track_caller]
    pub fn new(value: T) -> Mutex<T> {
        let made = Mutex::with_config(value, MutexConfig::default());
        made.unwrap_or_else(|error| panic!("no mutex: {error}"))
    }

    /// A mutex that is free. Where none can be made, the value is dropped.
    pub fn with_config(value: T, config: MutexConfig) -> Result<Mutex<T>, MakeError> {
        let MutexConfig { limit, waiters } = config;
        Ok(Mutex { line: permits(1, limit, waiters)?, value: UnsafeCell::new(value) })
    }

    /// The value.
    #[must_use]
    pub fn into_inner(self) -> T {
        self.value.into_inner()
    }
}

impl<T: ?Sized> Mutex<T> {
    fn guard(&self, held: Held) -> MutexGuard<'_, T> {
        MutexGuard { mutex: self, held, lent: PhantomData }
    }

    fn owned_guard(self: Arc<Self>, held: Held) -> OwnedMutexGuard<T> {
        OwnedMutexGuard { mutex: self, held, lent: PhantomData }
    }

    /// The mutex, as soon as it comes. Dropped before, the future leaves the line.
    #[inline]
    pub fn lock(&self) -> Lock<'_, T> {
        Lock { mutex: self, coming: self.line.coming() }
    }

    /// The mutex. The thread sleeps until it comes.
    pub fn lock_blocking(&self) -> Result<MutexGuard<'_, T>, WaitError> {
        self.line.take_blocking().map(|held| self.guard(held))
    }

    /// The mutex. The thread sleeps until it comes, or until the time is over.
    ///
    /// ```
    /// use cqs::{Mutex, TimeoutError};
    /// use std::time::Duration;
    ///
    /// let mutex = Mutex::new("a value");
    /// let guard = mutex.lock_timeout(Duration::from_secs(1)).unwrap();
    /// let none = mutex.lock_timeout(Duration::from_millis(1));
    /// assert_eq!(none.unwrap_err(), TimeoutError::TimedOut);
    /// assert_eq!(*guard, "a value");
    /// ```
    pub fn lock_timeout(&self, time: Duration) -> Result<MutexGuard<'_, T>, TimeoutError> {
        self.line.take_within(time).map(|held| self.guard(held))
    }

    /// The mutex where it is free. It never waits.
    ///
    /// ```
    /// let mutex = cqs::Mutex::new(1);
    /// let guard = mutex.try_lock().unwrap();
    /// assert!(mutex.try_lock().is_err());
    /// # drop(guard);
    /// ```
    pub fn try_lock(&self) -> Result<MutexGuard<'_, T>, NoneFree> {
        self.line.try_take().map(|held| self.guard(held)).ok_or(NoneFree)
    }

    /// As [`Mutex::lock`], with a guard that borrows nothing.
    pub async fn lock_owned(self: Arc<Self>) -> Result<OwnedMutexGuard<T>, WaitError> {
        let held = self.line.coming().await?;
        Ok(self.owned_guard(held))
    }

    /// As [`Mutex::lock_blocking`], with a guard that borrows nothing.
    ///
    /// ```
    /// use cqs::Mutex;
    /// use std::sync::Arc;
    ///
    /// let mutex = Arc::new(Mutex::new(vec![1]));
    /// let mut guard = mutex.clone().lock_owned_blocking().unwrap();
    /// guard.push(2);
    /// std::thread::spawn(move || drop(guard)).join().unwrap();
    /// assert_eq!(*mutex.try_lock().unwrap(), [1, 2]);
    /// ```
    pub fn lock_owned_blocking(self: Arc<Self>) -> Result<OwnedMutexGuard<T>, WaitError> {
        let held = self.line.take_blocking()?;
        Ok(self.owned_guard(held))
    }

    /// As [`Mutex::lock_timeout`], with a guard that borrows nothing.
    pub fn lock_owned_timeout(
        self: Arc<Self>,
        time: Duration,
    ) -> Result<OwnedMutexGuard<T>, TimeoutError> {
        let held = self.line.take_within(time)?;
        Ok(self.owned_guard(held))
    }

    /// As [`Mutex::try_lock`], with a guard that borrows nothing.
    pub fn try_lock_owned(self: Arc<Self>) -> Result<OwnedMutexGuard<T>, NoneFree> {
        let held = self.line.try_take().ok_or(NoneFree)?;
        Ok(self.owned_guard(held))
    }

    /// The value: nobody else has the mutex.
    #[must_use]
    pub fn get_mut(&mut self) -> &mut T {
        self.value.get_mut()
    }
}

impl<T: Default> Default for Mutex<T> {
    fn default() -> Mutex<T> {
        Mutex::new(T::default())
    }
}

impl<T> From<T> for Mutex<T> {
    fn from(value: T) -> Mutex<T> {
        Mutex::new(value)
    }
}

impl<T: ?Sized + fmt::Debug> fmt::Debug for Mutex<T> {
    fn fmt(&self, f: &mut fmt::Formatter<'_>) -> fmt::Result {
        let mut shown = f.debug_struct("Mutex");
        match self.try_lock() {
            Ok(guard) => shown.field("value", &&*guard),
            Err(NoneFree) => shown.field("value", &format_args!("<locked>")),
        };
        shown.finish_non_exhaustive()
    }
}

/// The future of [`Mutex::lock`]. Dropped, it leaves the line.
///
/// ```
/// # async fn add(mutex: &cqs::Mutex<u64>) -> Result<(), cqs::WaitError> {
/// let lock: cqs::Lock<u64> = mutex.lock();
/// *lock.await? += 1;
/// # Ok(())
/// # }
/// ```
#[must_use = "futures do nothing unless they are awaited"]
pub struct Lock<'a, T: ?Sized> {
    mutex: &'a Mutex<T>,
    coming: Coming<'a, Permits>,
}

impl<'a, T: ?Sized> Future for Lock<'a, T> {
    type Output = Result<MutexGuard<'a, T>, WaitError>;

    #[inline]
    fn poll(mut self: Pin<&mut Self>, cx: &mut Context<'_>) -> Poll<Self::Output> {
        let mutex = self.mutex;
        let came = Pin::new(&mut self.coming).poll(cx);
        came.map_ok(|held| mutex.guard(held))
    }
}

impl<T: ?Sized> fmt::Debug for Lock<'_, T> {
    fn fmt(&self, f: &mut fmt::Formatter<'_>) -> fmt::Result {
        f.debug_struct("Lock").finish_non_exhaustive()
    }
}

/// A [`Mutex`] that somebody has, and its value. It is unlocked when it is dropped, also by a panic.
///
/// ```
/// let mutex = cqs::Mutex::new(vec![1]);
/// let mut guard = mutex.lock_blocking().unwrap();
/// guard.push(2);
/// guard.unlock();
/// assert_eq!(*mutex.lock_blocking().unwrap(), [1, 2]);
/// ```
#[must_use = "a guard that isn't kept unlocks at once"]
pub struct MutexGuard<'a, T: ?Sized> {
    mutex: &'a Mutex<T>,
    held: Held,
    /// It may be shared between threads where its value may.
    lent: PhantomData<&'a mut T>,
}

impl<T: ?Sized> MutexGuard<'_, T> {
    /// Unlocks: the same as dropping it.
    pub fn unlock(self) {}
}

impl<T: ?Sized> Deref for MutexGuard<'_, T> {
    type Target = T;

    fn deref(&self) -> &T {
        // SAFETY: the guard has the only permit, and no other guard is there.
        unsafe { &*self.mutex.value.get() }
    }
}

impl<T: ?Sized> DerefMut for MutexGuard<'_, T> {
    fn deref_mut(&mut self) -> &mut T {
        // SAFETY: as above.
        unsafe { &mut *self.mutex.value.get() }
    }
}

impl<T: ?Sized> Drop for MutexGuard<'_, T> {
    fn drop(&mut self) {
        self.mutex.line.give(self.held);
    }
}

impl<T: ?Sized + fmt::Debug> fmt::Debug for MutexGuard<'_, T> {
    fn fmt(&self, f: &mut fmt::Formatter<'_>) -> fmt::Result {
        (**self).fmt(f)
    }
}

impl<T: ?Sized + fmt::Display> fmt::Display for MutexGuard<'_, T> {
    fn fmt(&self, f: &mut fmt::Formatter<'_>) -> fmt::Result {
        (**self).fmt(f)
    }
}

/// A [`Mutex`] that is shared by an [`Arc`] and that somebody has, and its value. It is unlocked
/// when it is dropped, also by a panic.
///
/// ```
/// use cqs::Mutex;
/// use std::sync::Arc;
///
/// let guard = Arc::new(Mutex::new(7)).lock_owned_blocking().unwrap();
/// assert_eq!(std::thread::spawn(move || *guard).join().unwrap(), 7);
/// ```
#[must_use = "a guard that isn't kept unlocks at once"]
pub struct OwnedMutexGuard<T: ?Sized> {
    mutex: Arc<Mutex<T>>,
    held: Held,
    /// It may be shared between threads where its value may.
    lent: PhantomData<T>,
}

impl<T: ?Sized> OwnedMutexGuard<T> {
    /// The mutex that it is of.
    #[must_use]
    pub fn mutex(&self) -> &Arc<Mutex<T>> {
        &self.mutex
    }

    /// Unlocks: the same as dropping it.
    pub fn unlock(self) {}
}

impl<T: ?Sized> Deref for OwnedMutexGuard<T> {
    type Target = T;

    fn deref(&self) -> &T {
        // SAFETY: the guard has the only permit, and no other guard is there.
        unsafe { &*self.mutex.value.get() }
    }
}

impl<T: ?Sized> DerefMut for OwnedMutexGuard<T> {
    fn deref_mut(&mut self) -> &mut T {
        // SAFETY: as above.
        unsafe { &mut *self.mutex.value.get() }
    }
}

impl<T: ?Sized> Drop for OwnedMutexGuard<T> {
    fn drop(&mut self) {
        self.mutex.line.give(self.held);
    }
}

impl<T: ?Sized + fmt::Debug> fmt::Debug for OwnedMutexGuard<T> {
    fn fmt(&self, f: &mut fmt::Formatter<'_>) -> fmt::Result {
        (**self).fmt(f)
    }
}

impl<T: ?Sized + fmt::Display> fmt::Display for OwnedMutexGuard<T> {
    fn fmt(&self, f: &mut fmt::Formatter<'_>) -> fmt::Result {
        (**self).fmt(f)
    }
}
