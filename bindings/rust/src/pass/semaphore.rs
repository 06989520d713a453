//! The semaphore, and the passes that it has.

use crate::errors::{MakeError, expect_in};
use crate::ffi;
use crate::pass::shared::Shared;
use crate::pass::{PassError, SemaphorePass};
use crate::primitive::MOST_LIMIT;
use std::sync::Arc;

/// How a semaphore is made.
#[derive(Clone, Copy, Debug, PartialEq, Eq)]
pub struct SemaphoreConfig {
    /// The permits, from 1 to 1,048,576.
    pub permits: u32,
    /// How many passes there may be at once, from 1 to 31.
    pub passes: u32,
    /// How many waits may be drawn in all, from 1 to 68,719,476,736.
    pub limit: u64,
}

impl Default for SemaphoreConfig {
    /// One permit, and as many passes and waits as there may be.
    fn default() -> SemaphoreConfig {
        SemaphoreConfig { permits: 1, passes: 31, limit: MOST_LIMIT }
    }
}

/// A fair semaphore. Clones are the same semaphore.
///
/// ```
/// use cqs::pass::{PassError, Semaphore, SemaphoreConfig};
///
/// let config = SemaphoreConfig { permits: 3, passes: 1, ..Default::default() };
/// let semaphore = Semaphore::new(config).unwrap();
/// let mut pass = semaphore.pass().unwrap();
/// assert_eq!(pass.state(), 3);
/// assert_eq!(semaphore.pass().unwrap_err(), PassError::Crowded);
/// ```
#[derive(Clone, Debug)]
pub struct Semaphore {
    shared: Arc<Shared>,
}

impl Semaphore {
    /// A semaphore with all its permits free.
    pub fn new(config: SemaphoreConfig) -> Result<Semaphore, MakeError> {
        let SemaphoreConfig { permits, passes, limit } = config;
        expect_in(1..=1_048_576, "permits", permits.into())?;
        let shared = Shared::new(ffi::KIND_SEMAPHORE, permits, passes, limit)?;
        Ok(Semaphore { shared: Arc::new(shared) })
    }

    /// A pass, for one caller: one that another caller gave up, or a new one. Where another thread
    /// makes one just now, it yields to it, and tries again.
    pub fn pass(&self) -> Result<SemaphorePass, PassError> {
        let number = self.shared.pass()?;
        Ok(SemaphorePass::of(self.shared.clone(), number))
    }
}
