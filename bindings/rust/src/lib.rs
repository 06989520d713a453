//! Fair primitives whose waiters can leave, over a library that is proved in Rattle: a semaphore, a
//! mutex, a pool of values, a count-down latch, and a barrier.
//!
//! ```
//! use cqs::Semaphore;
//!
//! # fn main() -> Result<(), Box<dyn std::error::Error>> {
//! let semaphore = Semaphore::new(3);
//! let permit = semaphore.acquire_blocking()?;      // or `semaphore.acquire().await?`
//! assert_eq!(semaphore.available_permits(), 2);
//! drop(permit);                                    // it is given back
//! assert_eq!(semaphore.available_permits(), 3);
//! # Ok(())
//! # }
//! ```
//!
//! # Which one do I want?
//!
//! | there is | take | you call |
//! |---|---|---|
//! | work that at most so many may do at once | [`Semaphore`] | `acquire`, and drop the permit |
//! | a value that one at a time may change | [`Mutex`] | `lock`, and drop the guard |
//! | a few values, connections say, of which each caller wants one | [`Pool`] | `take`, and drop the item |
//! | something that must have happened first, once | [`Latch`] | `count_down` there, `wait` here |
//! | up to 32 parties that go on together, round after round | [`Barrier`] | `wait` |
//! | a caller who looks at his wait himself, and wants no table of wakers | [`pass`] | |
//! | a permit that must not lie about for a caller who is late | [`pass::SyncSemaphore`] | `acquire`, and see what `release` says |
//!
//! The last one has no guards, futures and deadlines: its release may have the permit back, which
//! who releases has to see, and a guard that is dropped has nobody to tell.
//!
//! Each call that may wait comes in the same forms:
//!
//! | form | who waits |
//! |---|---|
//! | `acquire().await` | a task of any executor |
//! | `acquire_blocking()` | a thread, asleep |
//! | `acquire_timeout(time)` | a thread, asleep, until the time is over |
//! | `try_acquire()` | nobody |
//! | `acquire_owned()` and its like, over an [`Arc`](std::sync::Arc) | as above; what it gives borrows nothing |
//!
//! # What to know
//!
//! - **Any number** of threads and tasks may call, with `&self`. Below are at most 32 passes of the
//!   library, which they share; a call has one for some fifty nanoseconds.
//! - **Order is by number.** Who must wait draws a number, and the line is served in the order of
//!   these numbers. Whose call began first may draw the later one, if both come at once.
//! - **Dropped is ended.** A future that is dropped leaves the line, and what had come to it just
//!   before goes to the next one. So does a call whose time is over. A permit, a guard and an item
//!   are given back.
//! - **A panic holds nothing**: it drops what it had. Nothing is poisoned.
//! - **Forgotten is lost**, by [`mem::forget`](std::mem::forget): a permit is never given back, and
//!   a future that waits takes what comes to it.
//! - **`waiters`**: there is room for so many who wait at once, by default 4,096. Who comes to a full
//!   line is refused, as [`Crowded`](WaitError::Crowded); a later try may succeed. Waits stand 32 to
//!   a slot, and one who waits on keeps a whole slot; so where nearly all others have left, fewer may
//!   be refused. A barrier has room for all its parties.
//! - **`limit`**: a primitive is made for a number of waits in all, at most and by default
//!   68,719,476,736, of a latch 4,294,967,232. Only who has to wait draws one (of a pool the first
//!   taker of each value, too). Then it is [`Worn`](WaitError::Worn): what is free can be had, but
//!   nobody waits any more. A barrier renews itself.
//! - **Memory**: by the `waiters`, and not by the `limit`. Each takes 8 bytes of room and 12 in
//!   slots, from the start, and the rest some 40 KB; so by default some 120 KB. A waiter takes some
//!   100 bytes more while it waits.
//! - **What is given back is never refused.** Where there is no slot to pass it on, it is kept, and
//!   passed on as soon as somebody has left the line.
//! - **Wakes**: who gives something to a waiter wakes that one, and nobody else. A future is polled
//!   once when it comes and once when it is served; it never asks to be polled again by itself. Who
//!   waits looks at the wait when it was served, and once before at most.
//!
//! # What is proved, and what is tested
//!
//! The calls of the library are proved: each of its answers means what the contracts in Rattle say
//! (`bindings/c/cqs.h` names them). This crate is plain Rust, and tested: that it calls them rightly,
//! who is woken, and what stays at hand. A permit that is given back while nobody waits stays at
//! hand here, and is taken from here; as soon as somebody waits, all goes through the library.

#![warn(missing_docs, missing_debug_implementations, unreachable_pub)]
#![deny(unsafe_op_in_unsafe_fn)]

mod barrier;
mod errors;
mod ffi;
mod gate;
mod latch;
mod line;
mod mutex;
pub mod pass;
mod passes;
mod pool;
mod primitive;
mod semaphore;
mod sleeper;
mod spares;
mod wakers;

pub use barrier::{Barrier, BarrierConfig, BarrierWait};
pub use errors::{BadNumber, MakeError, NoneFree, TimeoutError, WaitError};
pub use latch::{CountDown, Latch, LatchConfig};
pub use mutex::{Lock, Mutex, MutexConfig, MutexGuard, OwnedMutexGuard};
pub use pool::{Item, OwnedItem, Pool, PoolConfig, Take};
pub use semaphore::{Acquire, OwnedPermit, Permit, Semaphore, SemaphoreConfig};
