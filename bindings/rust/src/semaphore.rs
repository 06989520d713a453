//! The semaphore.

use crate::errors::{MakeError, NoneFree, TimeoutError, WaitError, expect_in};
use crate::ffi;
use crate::line::{Coming, Held, Line};
use crate::primitive::{MOST_LIMIT, MOST_PASSES, Primitive, WAITERS, room_of};
use crate::spares::Permits;
use std::fmt;
use std::future::Future;
use std::pin::Pin;
use std::sync::Arc;
use std::task::{Context, Poll};
use std::time::Duration;

/// How a [`Semaphore`] is made.
///
/// ```
/// use cqs::SemaphoreConfig;
///
/// let config = SemaphoreConfig { permits: 3, ..SemaphoreConfig::default() };
/// assert_eq!((config.limit, config.waiters), (68_719_476_736, 4096));
/// ```
#[derive(Clone, Copy, Debug, PartialEq, Eq)]
pub struct SemaphoreConfig {
    /// The permits, from 1 to 1,048,576.
    pub permits: usize,
    /// How many waits may be drawn in all, from 1 to 68,719,476,736: one by each caller who finds no
    /// permit. It costs nothing.
    pub limit: u64,
    /// For how many who wait at once there is room, from 1 to 1,048,576. Each takes 20 bytes.
    pub waiters: usize,
}

impl Default for SemaphoreConfig {
    /// One permit, as many waits as may be drawn, and room for 4,096 who wait at once.
    fn default() -> SemaphoreConfig {
        SemaphoreConfig { permits: 1, limit: MOST_LIMIT, waiters: WAITERS }
    }
}

/// The line of a semaphore.
pub(crate) fn permits(
    permits: u32,
    limit: u64,
    waiters: usize,
) -> Result<Line<Permits>, MakeError> {
    let (kind, room) = (ffi::KIND_SEMAPHORE, room_of(waiters)?);
    let primitive = Primitive::new(kind, permits, MOST_PASSES, limit, room)?;
    Ok(Line::new(primitive, Permits::default(), 0))
}

/// A fair semaphore, for any number of threads and tasks.
///
/// Who finds no permit stands in line, by a number that the library draws, and permits go to the
/// line in the order of these numbers. Who stops waiting leaves the line: a future that is dropped,
/// or a call whose time is over.
///
/// # Examples
///
/// Threads:
///
/// ```
/// use cqs::Semaphore;
/// use std::thread;
///
/// let semaphore = Semaphore::new(3);
/// thread::scope(|scope| {
///     for _ in 0..8 {
///         scope.spawn(|| {
///             let permit = semaphore.acquire_blocking().expect("it isn't worn");
///             // At most three threads are here.
///             drop(permit);
///         });
///     }
/// });
/// assert_eq!(semaphore.available_permits(), 3);
/// ```
///
/// Tasks of any executor:
///
/// ```
/// use cqs::{Semaphore, WaitError};
///
/// async fn fetch(semaphore: &Semaphore) -> Result<(), WaitError> {
///     let _permit = semaphore.acquire().await?;
///     // At most so many tasks are here as there are permits.
///     Ok(())
/// }
/// # let semaphore = Semaphore::new(1);
/// # let mut cx = std::task::Context::from_waker(std::task::Waker::noop());
/// # use std::future::Future;
/// # assert!(std::pin::pin!(fetch(&semaphore)).poll(&mut cx).is_ready());
/// ```
pub struct Semaphore {
    line: Line<Permits>,
}

impl Semaphore {
    /// A semaphore with so many permits, all of them free, and room for 4,096 who wait at once.
    ///
    /// # Panics
    ///
    /// Where there are no permits or more than 1,048,576, or no memory: [`Semaphore::with_config`]
    /// says so.
    #[must_use]
    #[track_caller]
    pub fn new(permits: usize) -> Semaphore {
        let made = Semaphore::with_config(SemaphoreConfig { permits, ..Default::default() });
        made.unwrap_or_else(|error| panic!("no semaphore: {error}"))
    }

    /// A semaphore with all its permits free.
    pub fn with_config(config: SemaphoreConfig) -> Result<Semaphore, MakeError> {
        let SemaphoreConfig { permits: size, limit, waiters } = config;
        expect_in(1..=1_048_576, "permits", size as u64)?;
        Ok(Semaphore { line: permits(size as u32, limit, waiters)? })
    }

    /// A permit, as soon as one comes. Dropped before, the future leaves the line.
    ///
    /// It is polled again when a permit has come to it, and doesn't ask for more. An error says
    /// that no permit was free, and why it can't wait for one.
    #[inline]
    pub fn acquire(&self) -> Acquire<'_> {
        Acquire { semaphore: self, coming: self.line.coming() }
    }

    /// A permit. The thread sleeps until one comes.
    ///
    /// ```
    /// # fn main() -> Result<(), cqs::WaitError> {
    /// let semaphore = cqs::Semaphore::new(1);
    /// let permit = semaphore.acquire_blocking()?;
    /// assert_eq!(semaphore.available_permits(), 0);
    /// drop(permit);
    /// assert_eq!(semaphore.available_permits(), 1);
    /// # Ok(())
    /// # }
    /// ```
    #[inline]
    pub fn acquire_blocking(&self) -> Result<Permit<'_>, WaitError> {
        let held = self.line.take_blocking()?;
        Ok(Permit { semaphore: self, held })
    }

    /// A permit. The thread sleeps until one comes, or until the time is over.
    ///
    /// ```
    /// use cqs::{Semaphore, TimeoutError};
    /// use std::time::Duration;
    ///
    /// let semaphore = Semaphore::new(1);
    /// let permit = semaphore.acquire_timeout(Duration::from_secs(1)).unwrap();
    /// let none = semaphore.acquire_timeout(Duration::from_millis(1));
    /// assert_eq!(none.unwrap_err(), TimeoutError::TimedOut);
    /// drop(permit);
    /// ```
    #[inline]
    pub fn acquire_timeout(&self, time: Duration) -> Result<Permit<'_>, TimeoutError> {
        let held = self.line.take_within(time)?;
        Ok(Permit { semaphore: self, held })
    }

    /// A permit where one is free. It never waits.
    ///
    /// ```
    /// use cqs::{NoneFree, Semaphore};
    ///
    /// let semaphore = Semaphore::new(1);
    /// let permit = semaphore.try_acquire().unwrap();
    /// assert_eq!(semaphore.try_acquire().unwrap_err(), NoneFree);
    /// # drop(permit);
    /// ```
    #[inline]
    pub fn try_acquire(&self) -> Result<Permit<'_>, NoneFree> {
        let held = self.line.try_take().ok_or(NoneFree)?;
        Ok(Permit { semaphore: self, held })
    }

    /// As [`Semaphore::acquire`], with a permit that borrows nothing.
    ///
    /// ```
    /// use cqs::{OwnedPermit, Semaphore, WaitError};
    /// use std::sync::Arc;
    ///
    /// async fn start(semaphore: Arc<Semaphore>) -> Result<OwnedPermit, WaitError> {
    ///     // The permit can go to another task, and is given back there.
    ///     semaphore.acquire_owned().await
    /// }
    /// # let mut cx = std::task::Context::from_waker(std::task::Waker::noop());
    /// # use std::future::Future;
    /// # let started = start(Arc::new(Semaphore::new(1)));
    /// # assert!(std::pin::pin!(started).poll(&mut cx).is_ready());
    /// ```
    pub async fn acquire_owned(self: Arc<Self>) -> Result<OwnedPermit, WaitError> {
        let held = self.line.coming().await?;
        Ok(OwnedPermit { semaphore: self, held })
    }

    /// As [`Semaphore::acquire_blocking`], with a permit that borrows nothing.
    pub fn acquire_owned_blocking(self: Arc<Self>) -> Result<OwnedPermit, WaitError> {
        let held = self.line.take_blocking()?;
        Ok(OwnedPermit { semaphore: self, held })
    }

    /// As [`Semaphore::acquire_timeout`], with a permit that borrows nothing.
    pub fn acquire_owned_timeout(
        self: Arc<Self>,
        time: Duration,
    ) -> Result<OwnedPermit, TimeoutError> {
        let held = self.line.take_within(time)?;
        Ok(OwnedPermit { semaphore: self, held })
    }

    /// As [`Semaphore::try_acquire`], with a permit that borrows nothing.
    pub fn try_acquire_owned(self: Arc<Self>) -> Result<OwnedPermit, NoneFree> {
        let held = self.line.try_take().ok_or(NoneFree)?;
        Ok(OwnedPermit { semaphore: self, held })
    }

    /// How many permits are free. Where others take and give at the same time, it may miss one or
    /// count one twice.
    #[must_use]
    pub fn available_permits(&self) -> usize {
        self.line.free()
    }
}

impl fmt::Debug for Semaphore {
    fn fmt(&self, f: &mut fmt::Formatter<'_>) -> fmt::Result {
        let free = self.available_permits();
        f.debug_struct("Semaphore").field("available_permits", &free).finish_non_exhaustive()
    }
}

/// The future of [`Semaphore::acquire`]. Dropped, it leaves the line.
///
/// ```
/// use cqs::Semaphore;
/// use std::future::Future;
/// use std::pin::Pin;
/// use std::task::{Context, Waker};
///
/// let semaphore = Semaphore::new(1);
/// let permit = semaphore.try_acquire().unwrap();
/// let mut acquire = semaphore.acquire();
/// let mut cx = Context::from_waker(Waker::noop());
/// assert!(Pin::new(&mut acquire).poll(&mut cx).is_pending());
/// drop(permit);
/// assert!(Pin::new(&mut acquire).poll(&mut cx).is_ready());
/// ```
#[must_use = "futures do nothing unless they are awaited"]
pub struct Acquire<'a> {
    semaphore: &'a Semaphore,
    coming: Coming<'a, Permits>,
}

impl<'a> Future for Acquire<'a> {
    type Output = Result<Permit<'a>, WaitError>;

    #[inline]
    fn poll(mut self: Pin<&mut Self>, cx: &mut Context<'_>) -> Poll<Self::Output> {
        let semaphore = self.semaphore;
        let came = Pin::new(&mut self.coming).poll(cx);
        came.map_ok(|held| Permit { semaphore, held })
    }
}

impl fmt::Debug for Acquire<'_> {
    fn fmt(&self, f: &mut fmt::Formatter<'_>) -> fmt::Result {
        f.debug_struct("Acquire").finish_non_exhaustive()
    }
}

/// A permit of a [`Semaphore`]. It is given back when it is dropped, also by a panic. One that is
/// forgotten, by [`mem::forget`](std::mem::forget), is never given back.
///
/// ```
/// let semaphore = cqs::Semaphore::new(1);
/// let permit = semaphore.acquire_blocking().unwrap();
/// assert!(semaphore.try_acquire().is_err());
/// permit.release();
/// assert!(semaphore.try_acquire().is_ok());
/// ```
#[must_use = "a permit that isn't kept is given back at once"]
pub struct Permit<'a> {
    semaphore: &'a Semaphore,
    held: Held,
}

impl Permit<'_> {
    /// Gives it back: the same as dropping it.
    pub fn release(self) {}
}

impl Drop for Permit<'_> {
    #[inline]
    fn drop(&mut self) {
        self.semaphore.line.give(self.held);
    }
}

impl fmt::Debug for Permit<'_> {
    fn fmt(&self, f: &mut fmt::Formatter<'_>) -> fmt::Result {
        f.debug_struct("Permit").finish_non_exhaustive()
    }
}

/// A permit of a [`Semaphore`] that is shared by an [`Arc`]. It is given back when it is dropped,
/// also by a panic.
///
/// ```
/// use cqs::Semaphore;
/// use std::sync::Arc;
/// use std::thread;
///
/// let semaphore = Arc::new(Semaphore::new(2));
/// let workers: Vec<_> = (0..8)
///     .map(|_| {
///         let permit = semaphore.clone().acquire_owned_blocking().unwrap();
///         // At most two threads are at work.
///         thread::spawn(move || drop(permit))
///     })
///     .collect();
/// for worker in workers {
///     worker.join().unwrap();
/// }
/// assert_eq!(semaphore.available_permits(), 2);
/// ```
#[must_use = "a permit that isn't kept is given back at once"]
pub struct OwnedPermit {
    semaphore: Arc<Semaphore>,
    held: Held,
}

impl OwnedPermit {
    /// The semaphore that it is of.
    #[must_use]
    pub fn semaphore(&self) -> &Arc<Semaphore> {
        &self.semaphore
    }

    /// Gives it back: the same as dropping it.
    pub fn release(self) {}
}

impl Drop for OwnedPermit {
    #[inline]
    fn drop(&mut self) {
        self.semaphore.line.give(self.held);
    }
}

impl fmt::Debug for OwnedPermit {
    fn fmt(&self, f: &mut fmt::Formatter<'_>) -> fmt::Result {
        f.debug_struct("OwnedPermit").finish_non_exhaustive()
    }
}
