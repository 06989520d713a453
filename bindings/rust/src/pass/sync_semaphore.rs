//! The synchronous semaphore, which leaves no permit to a caller unseen, and the passes that it has.

use crate::errors::{MakeError, expect_in};
use crate::ffi;
use crate::pass::shared::Shared;
use crate::pass::{PassError, SemaphorePass, SyncSemaphorePass};
use crate::primitive::MOST_LIMIT;
use std::sync::Arc;

/// How a synchronous semaphore is made.
#[derive(Clone, Copy, Debug, PartialEq, Eq)]
pub struct SyncSemaphoreConfig {
    /// The permits, from 1 to 1,048,576.
    pub permits: u32,
    /// How often a release looks at a permit that it holds out, from 0 to 1,024, before it takes it
    /// back. A caller who has drawn its number comes in a few steps, unless its thread stops there.
    pub looks: u32,
    /// How many passes there may be at once, from 1 to 31.
    pub passes: u32,
    /// How many waits may be drawn in all, from 1 to 68,719,476,736.
    pub limit: u64,
}

impl Default for SyncSemaphoreConfig {
    /// One permit, 64 looks, and as many passes and waits as there may be.
    fn default() -> SyncSemaphoreConfig {
        SyncSemaphoreConfig { permits: 1, looks: 64, passes: 31, limit: MOST_LIMIT }
    }
}

/// A fair semaphore that leaves no permit to a caller unseen. Clones are the same semaphore.
///
/// Where a release finds that its caller hasn't come yet, it holds the permit out for so many looks
/// as the semaphore was made with, and sees it taken, or takes it back: it says which.
///
/// ```
/// use cqs::pass::{SyncAcquired, SyncReleased, SyncSemaphore};
///
/// let semaphore = SyncSemaphore::new(Default::default()).unwrap();
/// let (mut one, mut two) = (semaphore.pass().unwrap(), semaphore.pass().unwrap());
/// let Ok(SyncAcquired::Now(permit)) = one.acquire() else { panic!("it is free") };
/// let Ok(SyncAcquired::Later(wait)) = two.acquire() else { panic!("there is one permit") };
/// match permit.release() {
///     SyncReleased::Sent(number, _) => assert_eq!(number, wait.number()),
///     _ => panic!("its caller was there"),
/// }
/// let permit = wait.poll().unwrap();
/// assert!(matches!(permit.release(), SyncReleased::Freed(_)));
/// ```
#[derive(Clone, Debug)]
pub struct SyncSemaphore {
    shared: Arc<Shared>,
}

impl SyncSemaphore {
    /// A semaphore with all its permits free.
    pub fn new(config: SyncSemaphoreConfig) -> Result<SyncSemaphore, MakeError> {
        let SyncSemaphoreConfig { permits, looks, passes, limit } = config;
        expect_in(1..=1_048_576, "permits", permits.into())?;
        expect_in(0..=1024, "looks", looks.into())?;
        let kind = ffi::KIND_SYNC_SEMAPHORE;
        let shared = Shared::with_looks(kind, permits, passes, limit, looks)?;
        Ok(SyncSemaphore { shared: Arc::new(shared) })
    }

    /// A pass, for one caller: one that another caller gave up, or a new one. Where another thread
    /// makes one just now, it yields to it, and tries again.
    pub fn pass(&self) -> Result<SyncSemaphorePass, PassError> {
        let number = self.shared.pass()?;
        Ok(SyncSemaphorePass::of(SemaphorePass::of(self.shared.clone(), number)))
    }
}
