//! The exports of the library, as `bindings/c/cqs.h` declares them.

use std::ffi::c_void;

/// A primitive of the library.
#[repr(C)]
pub(crate) struct Raw {
    _private: [u8; 0],
}

/// An answer, and the number that it carries, or -1.
#[repr(C)]
#[derive(Clone, Copy, Debug, PartialEq, Eq)]
pub(crate) struct Answer {
    pub answer: u32,
    pub number: i64,
}

pub(crate) const NEW: u32 = 0;
pub(crate) const IN_USE: u32 = 3;
pub(crate) const OWES: u32 = 4;
/// The library says so of a permit and of a party.
pub(crate) const NO_PERMIT: u32 = 6;
pub(crate) const NO_WAIT: u32 = 7;
pub(crate) const FULL: u32 = 8;
pub(crate) const WORN: u32 = 9;
pub(crate) const CROWD: u32 = 10;
pub(crate) const MEMORY: u32 = 11;
pub(crate) const NO_CALL: u32 = 14;
pub(crate) const NOW: u32 = 16;
pub(crate) const LATER: u32 = 17;
pub(crate) const GOT: u32 = 18;
pub(crate) const NONE_FREE: u32 = 19;
pub(crate) const CONTENDED: u32 = 20;
pub(crate) const GRANTED: u32 = 21;
pub(crate) const PENDING: u32 = 22;
pub(crate) const CANCELLED: u32 = 23;
pub(crate) const CANCELLED_OWING: u32 = 24;
pub(crate) const TOO_LATE: u32 = 25;
pub(crate) const FREED: u32 = 26;
pub(crate) const SENT: u32 = 27;
pub(crate) const LEFT: u32 = 28;
pub(crate) const VOID: u32 = 29;
pub(crate) const UNDER: u32 = 30;
pub(crate) const STATE: u32 = 31;
pub(crate) const MADE: u32 = 33;
pub(crate) const TOOK: u32 = 35;
pub(crate) const PASSED: u32 = 36;
pub(crate) const THROUGH: u32 = 37;
pub(crate) const COUNTED: u32 = 38;
pub(crate) const LAST: u32 = 39;
pub(crate) const LAST_OWING: u32 = 40;
pub(crate) const ALREADY: u32 = 41;
pub(crate) const FINISHED: u32 = 42;
pub(crate) const CROWDED: u32 = 44;
pub(crate) const BROKE: u32 = 45;
pub(crate) const HANDLING: u32 = 46;

pub(crate) const KIND_SEMAPHORE: u32 = 0;
pub(crate) const KIND_POOL: u32 = 1;
pub(crate) const KIND_LATCH: u32 = 2;
pub(crate) const KIND_SIMPLE_LATCH: u32 = 3;
pub(crate) const KIND_BARRIER: u32 = 4;
pub(crate) const KIND_SYNC_SEMAPHORE: u32 = 5;

pub(crate) const DO_ENTER: u32 = 0;
pub(crate) const DO_TRY: u32 = 1;
pub(crate) const DO_POLL: u32 = 2;
pub(crate) const DO_CANCEL: u32 = 3;
pub(crate) const DO_LEAVE: u32 = 4;
pub(crate) const DO_FINISH: u32 = 5;
pub(crate) const DO_STATE: u32 = 6;
pub(crate) const DO_SPLIT: u32 = 8;

extern "C" {
    pub(crate) fn cqs_new(
        kind: u32,
        size: u32,
        passes: u32,
        limit: u64,
        waits: u32,
        looks: u32,
        out: *mut *mut Raw,
    ) -> u32;
    pub(crate) fn cqs_call(at: *const Raw, what: u32, pass: u32, number: u64) -> Answer;
    pub(crate) fn cqs_end(at: *mut Raw);

    /// The library's blocks come from malloc.
    pub(crate) fn free(block: *mut c_void);
}
