//! The same primitives with a pass for each caller, who looks at his wait himself.
//!
//! There is no table of wakers here, nothing sleeps, and nothing stays at hand: each call is one
//! call of the library. A caller has a pass of his own, of which there are at most 31 at once. A
//! pass is borrowed for as long as a permit or a wait of it lives, so it never has more than one of
//! them, nobody else's permit is given back, and no wait is looked at with another pass.
//!
//! [`SyncSemaphore`] is here alone. Its release may have the permit back, and who releases has to see
//! that; so it has no guards, futures and deadlines. A permit of it that is dropped all the
//! same is given until it is gone.
//!
//! What is dropped is ended: a wait leaves the line, a permit is given back, and a pass goes back to
//! its primitive, for the next caller. What was forgotten, by [`mem::forget`](std::mem::forget), is
//! ended by the next call with its pass, or when the pass is dropped.
//!
//! ```
//! use cqs::pass::{Acquired, Cancelled, Semaphore};
//!
//! # fn main() -> Result<(), Box<dyn std::error::Error>> {
//! let semaphore = Semaphore::new(Default::default())?;
//! let (mut one, mut two) = (semaphore.pass()?, semaphore.pass()?);
//! let permit = one.acquire_yielding()?;
//! match two.acquire()? {
//!     Acquired::Now(_) => unreachable!("there is one permit"),
//!     Acquired::Later(wait) => {
//!         let wait = wait.poll().unwrap_err();       // it goes on
//!         assert!(matches!(wait.cancel(), Cancelled::Gone(_)));
//!     }
//! }
//! permit.release();
//! # Ok(())
//! # }
//! ```

mod barrier;
mod errors;
mod latch;
mod mutex;
mod permit;
mod pool;
mod semaphore;
mod shared;
mod sync_permit;
mod sync_release;
mod sync_semaphore;
mod sync_wait;
mod wait;

pub use barrier::{Arrival, ArriveError, Barrier, BarrierConfig, Party, PartyEnd, PartyWait};
pub use errors::{PassError, TryError};
pub use latch::{Down, Entered, Latch, LatchConfig, LatchEnd, LatchMode, LatchPass, LatchWait};
pub use mutex::{LockEnd, LockWait, Locked, Mutex, MutexConfig, MutexGuard, MutexPass};
pub use permit::{Acquired, Permit, SemaphorePass};
pub use pool::{Item, Pool, PoolConfig, PoolPass, TakeEnd, TakeWait, Taken};
pub use semaphore::{Semaphore, SemaphoreConfig};
pub use sync_permit::{SyncAcquired, SyncPermit, SyncSemaphorePass};
pub use sync_release::{SyncOwed, SyncReleased};
pub use sync_semaphore::{SyncSemaphore, SyncSemaphoreConfig};
pub use sync_wait::{SyncCancelled, SyncWait};
pub use wait::{Cancelled, Wait};
