//! A primitive of the library, and the calls that are made of it.

use crate::errors::{MakeError, expect_in};
use crate::ffi;
use std::ptr;

/// So many waits may be drawn in all, at most.
pub(crate) const MOST_LIMIT: u64 = 68_719_476_736;

/// And of a latch, which counts all who ever came.
pub(crate) const MOST_LATCH_LIMIT: u64 = 4_294_967_232;

/// There may be room for so many who wait at once.
const MOST_WAITERS: usize = 1_048_576;

/// There is room for so many, where nobody says for how many.
pub(crate) const WAITERS: usize = 4096;

/// The room for waits in each of all passes: together for so many who wait at once.
pub(crate) fn room_of(waiters: usize) -> Result<u32, MakeError> {
    expect_in(1..=MOST_WAITERS as u64, "waiters", waiters as u64)?;
    Ok(waiters as u32 / MOST_PASSES + 1)
}

/// So many passes the library makes, at most.
pub(crate) const MOST_PASSES: u32 = 32;

/// A primitive of the library. It is freed when it is dropped.
#[derive(Debug)]
pub(crate) struct Primitive {
    raw: *mut ffi::Raw,
}

// SAFETY: the library's calls may be made by any thread at any time (bindings/c/cqs.h), and the
// primitive is freed once, by its owner.
unsafe impl Send for Primitive {}
// SAFETY: as above.
unsafe impl Sync for Primitive {}

impl Primitive {
    /// The primitive of this kind, whose size is in range, with so many passes at most, each of
    /// which has room for so many waits.
    pub(crate) fn new(
        kind: u32,
        size: u32,
        passes: u32,
        limit: u64,
        waits: u32,
    ) -> Result<Primitive, MakeError> {
        Primitive::with_looks(kind, size, passes, limit, waits, 0)
    }

    /// The same; of a synchronous semaphore a release looks so often at a permit that it holds out.
    pub(crate) fn with_looks(
        kind: u32,
        size: u32,
        passes: u32,
        limit: u64,
        waits: u32,
        looks: u32,
    ) -> Result<Primitive, MakeError> {
        let most = match kind {
            ffi::KIND_LATCH | ffi::KIND_SIMPLE_LATCH => MOST_LATCH_LIMIT,
            _ => MOST_LIMIT,
        };
        expect_in(1..=most, "limit", limit)?;
        let mut raw = ptr::null_mut();
        // SAFETY: `raw` is room for a pointer.
        let answer = unsafe { ffi::cqs_new(kind, size, passes, limit, waits, looks, &mut raw) };
        match answer {
            ffi::NEW => Ok(Primitive { raw }),
            ffi::MEMORY => Err(MakeError::Memory),
            other => unreachable!("cqs_new answered {other}"),
        }
    }

    /// One call.
    pub(crate) fn call(&self, what: u32, pass: u32, number: u64) -> ffi::Answer {
        // SAFETY: `raw` came from `cqs_new`, and is there as long as `self` is.
        unsafe { ffi::cqs_call(self.raw, what, pass, number) }
    }
}

impl Drop for Primitive {
    fn drop(&mut self) {
        // SAFETY: `raw` came from `cqs_new`, is ended once, and nobody calls any more.
        unsafe {
            ffi::cqs_end(self.raw);
            ffi::free(self.raw.cast());
        }
    }
}
