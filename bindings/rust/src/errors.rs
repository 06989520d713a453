//! Why something was refused.

use std::error::Error;
use std::fmt;
use std::ops::RangeInclusive;

/// Why no primitive was made.
///
/// ```
/// use cqs::{MakeError, Semaphore, SemaphoreConfig};
///
/// let none = SemaphoreConfig { permits: 0, ..SemaphoreConfig::default() };
/// let error = Semaphore::with_config(none).unwrap_err();
/// assert_eq!(error.to_string(), "`permits` is 0, and must be from 1 to 1048576");
/// assert!(matches!(error, MakeError::BadConfig(number) if number.name() == "permits"));
/// ```
#[derive(Clone, Copy, Debug, PartialEq, Eq)]
pub enum MakeError {
    /// This number is out of range.
    BadConfig(BadNumber),
    /// There was no memory.
    Memory,
}

/// A number of a config that is out of range.
///
/// ```
/// use cqs::{Barrier, BarrierConfig, MakeError};
///
/// let made = Barrier::with_config(BarrierConfig { parties: 33 });
/// let Err(MakeError::BadConfig(number)) = made else { panic!("33 are too many") };
/// assert_eq!((number.name(), number.given(), number.range()), ("parties", 33, 1..=32));
/// ```
#[derive(Clone, Copy, Debug, PartialEq, Eq)]
pub struct BadNumber {
    name: &'static str,
    given: u64,
    least: u64,
    most: u64,
}

impl BadNumber {
    /// The name of its field, or `values` where a pool was given too few or too many.
    pub fn name(&self) -> &'static str {
        self.name
    }

    /// The number that was given.
    pub fn given(&self) -> u64 {
        self.given
    }

    /// The numbers that may be given.
    pub fn range(&self) -> RangeInclusive<u64> {
        self.least..=self.most
    }
}

/// Refuses a number that is out of range.
pub(crate) fn expect_in(
    range: RangeInclusive<u64>,
    name: &'static str,
    given: u64,
) -> Result<(), MakeError> {
    if range.contains(&given) {
        return Ok(());
    }
    let (&least, &most) = (range.start(), range.end());
    Err(MakeError::BadConfig(BadNumber { name, given, least, most }))
}

/// Why a caller who would have to wait can't.
///
/// What is free can still be had, and who waits is still served.
///
/// ```
/// use cqs::{Mutex, MutexConfig, TimeoutError, WaitError};
/// use std::time::Duration;
///
/// let config = MutexConfig { limit: 1, ..MutexConfig::default() };
/// let mutex = Mutex::with_config(0, config).unwrap();
/// let guard = mutex.lock_blocking().unwrap();
/// let first_wait = mutex.lock_timeout(Duration::from_millis(1));
/// assert_eq!(first_wait.unwrap_err(), TimeoutError::TimedOut);
/// assert_eq!(mutex.lock_blocking().unwrap_err(), WaitError::Worn);
/// drop(guard);
/// assert!(mutex.lock_blocking().is_ok());
/// ```
#[derive(Clone, Copy, Debug, PartialEq, Eq)]
pub enum WaitError {
    /// As many waits were drawn as the primitive was made for (`limit` of its config). A worn
    /// primitive is to be replaced by a new one.
    Worn,
    /// There is no room for one more who waits: as many wait as the primitive was made for
    /// (`waiters` of its config), or fewer, who came far apart, with many in between who left. A
    /// later try may succeed, once some have stopped waiting.
    Crowded,
}

/// Nothing was free.
///
/// ```
/// use cqs::{NoneFree, Semaphore};
///
/// let semaphore = Semaphore::new(1);
/// let permit = semaphore.try_acquire()?;
/// assert_eq!(semaphore.try_acquire().unwrap_err(), NoneFree);
/// # drop(permit);
/// # Ok::<(), NoneFree>(())
/// ```
#[derive(Clone, Copy, Debug, PartialEq, Eq)]
pub struct NoneFree;

/// Why a call with a deadline got nothing.
///
/// ```
/// use cqs::{Latch, TimeoutError};
/// use std::time::Duration;
///
/// match Latch::new(1).wait_timeout(Duration::from_millis(1)) {
///     Ok(()) => unreachable!("nobody counts it down"),
///     Err(TimeoutError::TimedOut) => {}
///     Err(TimeoutError::Worn | TimeoutError::Crowded) => unreachable!("it is new"),
/// }
/// ```
#[derive(Clone, Copy, Debug, PartialEq, Eq)]
pub enum TimeoutError {
    /// The time is over. The caller has left the line.
    TimedOut,
    /// As many waits were drawn as the primitive was made for.
    Worn,
    /// There is no room for one more who waits: [`WaitError::Crowded`].
    Crowded,
}

impl From<WaitError> for TimeoutError {
    fn from(error: WaitError) -> TimeoutError {
        match error {
            WaitError::Worn => TimeoutError::Worn,
            WaitError::Crowded => TimeoutError::Crowded,
        }
    }
}

impl fmt::Display for MakeError {
    fn fmt(&self, f: &mut fmt::Formatter<'_>) -> fmt::Result {
        match self {
            MakeError::BadConfig(number) => number.fmt(f),
            MakeError::Memory => f.write_str("there is no memory for the primitive"),
        }
    }
}

impl fmt::Display for BadNumber {
    fn fmt(&self, f: &mut fmt::Formatter<'_>) -> fmt::Result {
        let BadNumber { name, given, least, most } = self;
        write!(f, "`{name}` is {given}, and must be from {least} to {most}")
    }
}

impl fmt::Display for WaitError {
    fn fmt(&self, f: &mut fmt::Formatter<'_>) -> fmt::Result {
        f.write_str(match self {
            WaitError::Worn => "as many waits were drawn as the primitive was made for",
            WaitError::Crowded => "there is no room for one more who waits",
        })
    }
}

impl fmt::Display for NoneFree {
    fn fmt(&self, f: &mut fmt::Formatter<'_>) -> fmt::Result {
        f.write_str("nothing was free")
    }
}

impl fmt::Display for TimeoutError {
    fn fmt(&self, f: &mut fmt::Formatter<'_>) -> fmt::Result {
        match self {
            TimeoutError::TimedOut => f.write_str("the time is over"),
            TimeoutError::Worn => WaitError::Worn.fmt(f),
            TimeoutError::Crowded => WaitError::Crowded.fmt(f),
        }
    }
}

impl Error for MakeError {
    fn source(&self) -> Option<&(dyn Error + 'static)> {
        match self {
            MakeError::BadConfig(number) => Some(number),
            MakeError::Memory => None,
        }
    }
}

impl Error for BadNumber {}
impl Error for WaitError {}
impl Error for NoneFree {}
impl Error for TimeoutError {}
