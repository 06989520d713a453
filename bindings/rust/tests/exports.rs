//! The exports themselves, called as C calls them: what is refused, and that it changes nothing.

use std::ffi::c_void;
use std::thread;

// The crate links the library.
use cqs as _;

#[repr(C)]
#[derive(Clone, Copy, Debug, PartialEq, Eq)]
struct Answer {
    answer: u32,
    number: i64,
}

const NULL: u32 = 1;
const NO_PASS: u32 = 2;
const IN_USE: u32 = 3;
const OWES_NOTHING: u32 = 5;
const NO_PERMIT: u32 = 6;
const NO_PARTY: u32 = 6;
const NO_WAIT: u32 = 7;
const FULL: u32 = 8;
const CROWD: u32 = 10;
const BUSY: u32 = 12;
const BAD_CONFIG: u32 = 13;
const NO_CALL: u32 = 14;
const NO_ELEMENT: u32 = 15;
const NOW: u32 = 16;
const LATER: u32 = 17;
const GOT: u32 = 18;
const NONE_FREE: u32 = 19;
const GRANTED: u32 = 21;
const PENDING: u32 = 22;
const CANCELLED: u32 = 23;
const TOO_LATE: u32 = 25;
const FREED: u32 = 26;
const SENT: u32 = 27;
const LEFT: u32 = 28;
const STATE: u32 = 31;
const SOLE: u32 = 32;
const MADE: u32 = 33;
const MET: u32 = 34;
const TOOK: u32 = 35;
const PASSED: u32 = 36;
const THROUGH: u32 = 37;
const COUNTED: u32 = 38;
const LAST: u32 = 39;
const ALREADY: u32 = 41;

const KIND_SEMAPHORE: u32 = 0;
const KIND_POOL: u32 = 1;
const KIND_LATCH: u32 = 2;
const KIND_SIMPLE_LATCH: u32 = 3;
const KIND_BARRIER: u32 = 4;
const KIND_SYNC_SEMAPHORE: u32 = 5;

const DO_ENTER: u32 = 0;
const DO_TRY: u32 = 1;
const DO_POLL: u32 = 2;
const DO_CANCEL: u32 = 3;
const DO_LEAVE: u32 = 4;
const DO_FINISH: u32 = 5;
const DO_STATE: u32 = 6;
const DO_SOLE: u32 = 7;
const DO_SPLIT: u32 = 8;
const DO_MEET: u32 = 9;

extern "C" {
    fn cqs_new(
        kind: u32,
        size: u32,
        passes: u32,
        limit: u64,
        waits: u32,
        looks: u32,
        out: *mut *mut c_void,
    ) -> u32;
    fn cqs_call(at: *const c_void, what: u32, pass: u32, number: u64) -> Answer;
    fn cqs_end(at: *mut c_void);
    fn free(block: *mut c_void);
}

// The functions of `bindings/c/cqs.h`, which C writes inline.
unsafe fn cqs_semaphore_new(p: u32, n: u32, limit: u64, waits: u32, at: *mut *mut c_void) -> u32 {
    cqs_new(0, p, n, limit, waits, 0, at)
}
unsafe fn cqs_semaphore_end(s: *mut c_void) {
    cqs_end(s)
}
unsafe fn cqs_semaphore_acquire(s: *const c_void, pass: u32) -> Answer {
    cqs_call(s, 0, pass, 0)
}
unsafe fn cqs_semaphore_try(s: *const c_void, pass: u32) -> Answer {
    cqs_call(s, 1, pass, 0)
}
unsafe fn cqs_semaphore_poll(s: *const c_void, pass: u32, wait: u64) -> Answer {
    cqs_call(s, 2, pass, wait)
}
unsafe fn cqs_semaphore_cancel(s: *const c_void, pass: u32, wait: u64) -> Answer {
    cqs_call(s, 3, pass, wait)
}
unsafe fn cqs_semaphore_release(s: *const c_void, pass: u32) -> Answer {
    cqs_call(s, 4, pass, 0)
}
unsafe fn cqs_semaphore_finish(s: *const c_void, pass: u32) -> Answer {
    cqs_call(s, 5, pass, 0)
}
unsafe fn cqs_semaphore_state(s: *const c_void, pass: u32) -> Answer {
    cqs_call(s, 6, pass, 0)
}
unsafe fn cqs_semaphore_sole(s: *const c_void, pass: u32) -> Answer {
    cqs_call(s, 7, pass, 0)
}
unsafe fn cqs_semaphore_split(s: *const c_void, pass: u32) -> Answer {
    cqs_call(s, 8, pass, 0)
}
unsafe fn cqs_semaphore_meet(s: *const c_void, pass: u32, given: u32) -> Answer {
    cqs_call(s, 9, pass, given.into())
}

struct Semaphore(*mut c_void);

// SAFETY: every call but the drop may be made by any thread at any time.
unsafe impl Sync for Semaphore {}

impl Semaphore {
    fn new(permits: u32, passes: u32, limit: u64, waits: u32) -> Semaphore {
        let mut at = std::ptr::null_mut();
        // SAFETY: `at` is room for a pointer.
        let made = unsafe { cqs_semaphore_new(permits, passes, limit, waits, &mut at) };
        assert_eq!(made, 0);
        Semaphore(at)
    }

    // SAFETY of all of these: the semaphore is there until it is dropped.
    fn acquire(&self, pass: u32) -> Answer {
        unsafe { cqs_semaphore_acquire(self.0, pass) }
    }
    fn poll(&self, pass: u32, wait: u64) -> Answer {
        unsafe { cqs_semaphore_poll(self.0, pass, wait) }
    }
    fn cancel(&self, pass: u32, wait: u64) -> Answer {
        unsafe { cqs_semaphore_cancel(self.0, pass, wait) }
    }
    fn release(&self, pass: u32) -> Answer {
        unsafe { cqs_semaphore_release(self.0, pass) }
    }
    fn finish(&self, pass: u32) -> Answer {
        unsafe { cqs_semaphore_finish(self.0, pass) }
    }
    fn state(&self, pass: u32) -> Answer {
        unsafe { cqs_semaphore_state(self.0, pass) }
    }
    fn sole(&self, pass: u32) -> Answer {
        unsafe { cqs_semaphore_sole(self.0, pass) }
    }
    fn split(&self, pass: u32) -> Answer {
        unsafe { cqs_semaphore_split(self.0, pass) }
    }
    fn meet(&self, pass: u32, given: u32) -> Answer {
        unsafe { cqs_semaphore_meet(self.0, pass, given) }
    }
}

impl Drop for Semaphore {
    fn drop(&mut self) {
        // SAFETY: it is ended once.
        unsafe {
            cqs_semaphore_end(self.0);
            free(self.0);
        }
    }
}

/// A primitive of whatever kind, and its calls by their numbers.
struct Primitive(*mut c_void);

impl Primitive {
    fn new(kind: u32, size: u32, passes: u32, limit: u64, waits: u32) -> Primitive {
        Primitive::with_looks(kind, size, passes, limit, waits, 0)
    }

    fn with_looks(
        kind: u32,
        size: u32,
        passes: u32,
        limit: u64,
        waits: u32,
        looks: u32,
    ) -> Primitive {
        let mut at = std::ptr::null_mut();
        // SAFETY: `at` is room for a pointer.
        assert_eq!(unsafe { cqs_new(kind, size, passes, limit, waits, looks, &mut at) }, 0);
        Primitive(at)
    }

    fn call(&self, what: u32, pass: u32, number: u64) -> Answer {
        // SAFETY: the primitive is there until it is dropped.
        unsafe { cqs_call(self.0, what, pass, number) }
    }
}

impl Drop for Primitive {
    fn drop(&mut self) {
        // SAFETY: it is ended once.
        unsafe {
            cqs_end(self.0);
            free(self.0);
        }
    }
}

fn bare(answer: u32) -> Answer {
    Answer { answer, number: -1 }
}

fn with(answer: u32, number: i64) -> Answer {
    Answer { answer, number }
}

#[test]
fn null() {
    let none = std::ptr::null();
    let refused = bare(NULL);
    // SAFETY: null is tested.
    unsafe {
        assert_eq!(cqs_semaphore_acquire(none, 0), refused);
        assert_eq!(cqs_semaphore_try(none, 0), refused);
        assert_eq!(cqs_semaphore_poll(none, 0, 0), refused);
        assert_eq!(cqs_semaphore_cancel(none, 0, 0), refused);
        assert_eq!(cqs_semaphore_release(none, 0), refused);
        assert_eq!(cqs_semaphore_finish(none, 0), refused);
        assert_eq!(cqs_semaphore_state(none, 0), refused);
        assert_eq!(cqs_semaphore_sole(none, 0), refused);
        assert_eq!(cqs_semaphore_split(none, 0), refused);
        assert_eq!(cqs_semaphore_meet(none, 0, 0), refused);
        cqs_semaphore_end(std::ptr::null_mut());
    }
}

#[test]
fn sizes_out_of_range() {
    let new = |permits, passes, limit, waits| {
        let mut at = std::ptr::null_mut();
        // SAFETY: `at` is room for a pointer.
        let answer = unsafe { cqs_semaphore_new(permits, passes, limit, waits, &mut at) };
        assert!(at.is_null());
        answer
    };
    assert_eq!(new(0, 1, 1, 1), BAD_CONFIG);
    assert_eq!(new(1_048_577, 1, 1, 1), BAD_CONFIG);
    assert_eq!(new(1, 0, 1, 1), BAD_CONFIG);
    assert_eq!(new(1, 33, 1, 1), BAD_CONFIG);
    assert_eq!(new(1, u32::MAX, 1, 1), BAD_CONFIG);
    assert_eq!(new(1, 1, 0, 1), BAD_CONFIG);
    assert_eq!(new(1, 1, 68_719_476_737, 1), BAD_CONFIG);
    assert_eq!(new(1, 1, u64::MAX, 1), BAD_CONFIG);
    assert_eq!(new(1, 1, 1, 1_048_577), BAD_CONFIG);
}

#[test]
fn numbers_that_are_not_there() {
    let s = Semaphore::new(1, 2, 10, 2);
    for pass in [1, 2, 31, u32::MAX] {
        assert_eq!(s.acquire(pass), bare(NO_PASS));
        assert_eq!(s.meet(0, pass), bare(NO_PASS));
        assert_eq!(s.meet(pass, 0), bare(NO_PASS));
    }
    assert_eq!(s.release(0), bare(NO_PERMIT));
    assert_eq!(s.finish(0), bare(OWES_NOTHING));
    assert_eq!(s.split(0), with(MADE, 1));
    assert_eq!(s.split(0), bare(CROWD));
    assert_eq!(s.acquire(0), bare(NOW));
    assert_eq!(s.acquire(1), with(LATER, 0));
    for wait in [1, u64::MAX] {
        assert_eq!(s.poll(1, wait), bare(NO_WAIT));
        assert_eq!(s.cancel(1, wait), bare(NO_WAIT));
    }
    assert_eq!(s.poll(0, 0), bare(NO_WAIT));
    assert_eq!(s.poll(1, 0), bare(PENDING));
    assert_eq!(s.meet(0, 1), bare(BUSY));
    assert_eq!(s.meet(0, 0), bare(IN_USE));
    assert_eq!(s.acquire(1), with(LATER, 1));
    assert_eq!(s.acquire(1), bare(FULL));
    assert_eq!(s.state(1), with(STATE, -2));
    assert_eq!(s.cancel(1, 0), bare(CANCELLED));
    assert_eq!(s.cancel(1, 0), bare(NO_WAIT));
    assert_eq!(s.cancel(1, 1), bare(CANCELLED));
    assert_eq!(s.meet(1, 0), bare(MET));
    assert_eq!(s.acquire(0), bare(NO_PASS));
    assert_eq!(s.sole(1), with(SOLE, 1));
    assert_eq!(s.release(1), bare(FREED));
    assert_eq!(s.state(1), with(STATE, 1));
}

#[test]
fn those_who_left_are_passed_over_in_one_call() {
    let s = Semaphore::new(1, 2, 200, 4);
    assert_eq!(s.split(0), with(MADE, 1));
    assert_eq!(s.acquire(0), bare(NOW));
    // A waiter stays behind, so that each cancel leaves the line and its cell is passed over.
    for number in 0..70 {
        assert_eq!(s.acquire(1), with(LATER, number));
        assert_eq!(s.cancel(1, number as u64), bare(CANCELLED));
    }
    assert_eq!(s.acquire(1), with(LATER, 70));
    assert_eq!(s.release(0), with(SENT, 70));
    assert_eq!(s.finish(0), bare(OWES_NOTHING));
}

/// From one thread nobody is late: each caller is in its cell before the next call.
#[test]
fn what_a_synchronous_semaphore_refuses() {
    let new = |permits, passes, limit, waits, looks| {
        let mut at = std::ptr::null_mut();
        let kind = KIND_SYNC_SEMAPHORE;
        // SAFETY: `at` is room for a pointer.
        let answer = unsafe { cqs_new(kind, permits, passes, limit, waits, looks, &mut at) };
        assert!(at.is_null());
        answer
    };
    assert_eq!(new(0, 1, 1, 1, 1), BAD_CONFIG);
    assert_eq!(new(1_048_577, 1, 1, 1, 1), BAD_CONFIG);
    assert_eq!(new(1, 0, 1, 1, 1), BAD_CONFIG);
    assert_eq!(new(1, 33, 1, 1, 1), BAD_CONFIG);
    assert_eq!(new(1, 1, 0, 1, 1), BAD_CONFIG);
    assert_eq!(new(1, 1, 68_719_476_737, 1, 1), BAD_CONFIG);
    assert_eq!(new(1, 1, 1, 1_048_577, 1), BAD_CONFIG);
    assert_eq!(new(1, 1, 1, 1, 1_025), BAD_CONFIG);
    assert_eq!(new(1, 1, 1, 1, u32::MAX), BAD_CONFIG);
    for looks in [0, 1, 1_024] {
        let s = Primitive::with_looks(KIND_SYNC_SEMAPHORE, 1, 3, 300, 2, looks);
        assert_eq!(s.call(DO_LEAVE, 0, 0), bare(NO_PERMIT));
        assert_eq!(s.call(DO_FINISH, 0, 0), bare(OWES_NOTHING));
        assert_eq!(s.call(DO_SPLIT, 0, 0), with(MADE, 1));
        assert_eq!(s.call(DO_TRY, 0, 0), bare(GOT));
        assert_eq!(s.call(DO_TRY, 1, 0), bare(NONE_FREE));
        assert_eq!(s.call(DO_LEAVE, 0, 0), bare(FREED));
        assert_eq!(s.call(DO_ENTER, 0, 0), bare(NOW));
        assert_eq!(s.call(DO_ENTER, 1, 0), with(LATER, 0));
        assert_eq!(s.call(DO_ENTER, 1, 0), with(LATER, 1));
        assert_eq!(s.call(DO_ENTER, 1, 0), bare(FULL));
        assert_eq!(s.call(DO_STATE, 0, 0), with(STATE, -2));
        for what in [DO_POLL, DO_CANCEL] {
            assert_eq!(s.call(what, 1, 2), bare(NO_WAIT));
            assert_eq!(s.call(what, 0, 0), bare(NO_WAIT));
        }
        assert_eq!(s.call(DO_POLL, 1, 0), bare(PENDING));
        assert_eq!(s.call(DO_MEET, 0, 1), bare(BUSY));
        assert_eq!(s.call(DO_LEAVE, 0, 0), with(SENT, 0));
        assert_eq!(s.call(DO_POLL, 1, 0), bare(GRANTED));
        assert_eq!(s.call(DO_LEAVE, 1, 0), with(SENT, 1));
        assert_eq!(s.call(DO_CANCEL, 1, 1), bare(TOO_LATE));
        // Those who left are passed over in one call.
        for number in 2..72 {
            assert_eq!(s.call(DO_ENTER, 0, 0), with(LATER, number));
            assert_eq!(s.call(DO_CANCEL, 0, number as u64), bare(CANCELLED));
        }
        assert_eq!(s.call(DO_ENTER, 0, 0), with(LATER, 72));
        assert_eq!(s.call(DO_LEAVE, 1, 0), with(SENT, 72));
        assert_eq!(s.call(DO_FINISH, 1, 0), bare(OWES_NOTHING));
        assert_eq!(s.call(DO_POLL, 0, 72), bare(GRANTED));
        assert_eq!(s.call(DO_LEAVE, 0, 0), bare(FREED));
        assert_eq!(s.call(DO_MEET, 0, 1), bare(MET));
        assert_eq!(s.call(DO_SOLE, 0, 0), with(SOLE, 1));
        assert_eq!(s.call(DO_STATE, 0, 0), with(STATE, 1));
    }
}

/// All other kinds are made whatever the looks are.
#[test]
fn looks_are_of_the_synchronous_semaphore_alone() {
    for kind in [KIND_SEMAPHORE, KIND_POOL, KIND_LATCH, KIND_SIMPLE_LATCH, KIND_BARRIER] {
        let made = Primitive::with_looks(kind, 1, 1, 1, 1, u32::MAX);
        assert_eq!(made.call(DO_SOLE, 0, 0), with(SOLE, 1));
    }
}

#[test]
fn what_a_pool_refuses() {
    for size in [0, 4_097, u32::MAX] {
        let mut at = std::ptr::null_mut();
        // SAFETY: `at` is room for a pointer.
        assert_eq!(unsafe { cqs_new(KIND_POOL, size, 1, 1, 1, 0, &mut at) }, BAD_CONFIG);
        assert!(at.is_null());
    }
    let p = Primitive::new(KIND_POOL, 2, 3, 300, 2);
    for what in [DO_TRY, DO_STATE] {
        assert_eq!(p.call(what, 0, 0), bare(NO_CALL));
    }
    assert_eq!(p.call(DO_FINISH, 0, 0), bare(OWES_NOTHING));
    assert_eq!(p.call(DO_SPLIT, 0, 0), with(MADE, 1));
    assert_eq!(p.call(DO_ENTER, 0, 0), with(TOOK, 0));
    // An element is put back by who has it, and once.
    assert_eq!(p.call(DO_LEAVE, 0, 1), bare(NO_ELEMENT));
    assert_eq!(p.call(DO_LEAVE, 0, 1 << 32), bare(NO_ELEMENT));
    assert_eq!(p.call(DO_LEAVE, 1, 0), bare(NO_ELEMENT));
    assert_eq!(p.call(DO_ENTER, 1, 0), with(TOOK, 1));
    assert_eq!(p.call(DO_LEAVE, 0, 0).answer, LEFT);
    assert_eq!(p.call(DO_LEAVE, 0, 0), bare(NO_ELEMENT));
    assert_eq!(p.call(DO_ENTER, 0, 0), with(TOOK, 0));
    // One who has all elements that are free may wait for another.
    assert_eq!(p.call(DO_LEAVE, 1, 1).answer, LEFT);
    assert_eq!(p.call(DO_ENTER, 0, 0), with(TOOK, 1));
    assert_eq!(p.call(DO_ENTER, 0, 0), with(LATER, 4));
    assert_eq!(p.call(DO_POLL, 0, 4), bare(PENDING));
    assert_eq!(p.call(DO_POLL, 0, 3), bare(NO_WAIT));
    assert_eq!(p.call(DO_CANCEL, 1, 4), bare(NO_WAIT));
    assert_eq!(p.call(DO_ENTER, 0, 0), with(LATER, 5));
    assert_eq!(p.call(DO_ENTER, 0, 0), bare(FULL));
    // Who waits, or has elements, is taken in by nobody.
    assert_eq!(p.call(DO_MEET, 1, 0), bare(BUSY));
    assert_eq!(p.call(DO_LEAVE, 0, 1), with(SENT, 4));
    assert_eq!(p.call(DO_POLL, 0, 4), with(TOOK, 1));
    assert_eq!(p.call(DO_CANCEL, 0, 5), bare(CANCELLED));
    assert_eq!(p.call(DO_MEET, 1, 0), bare(BUSY));
    assert_eq!(p.call(DO_MEET, 0, 1), bare(MET));
    assert_eq!(p.call(DO_SOLE, 0, 0), with(SOLE, 1));
    // Those who left are passed over in one call.
    for number in 6..76 {
        assert_eq!(p.call(DO_ENTER, 0, 0), with(LATER, number));
        assert_eq!(p.call(DO_CANCEL, 0, number as u64), bare(CANCELLED));
    }
    assert_eq!(p.call(DO_LEAVE, 0, 0).answer, LEFT);
    assert_eq!(p.call(DO_FINISH, 0, 0), bare(OWES_NOTHING));
}

#[test]
fn what_a_latch_refuses() {
    for kind in [KIND_LATCH, KIND_SIMPLE_LATCH] {
        let mut at = std::ptr::null_mut();
        // SAFETY: `at` is room for a pointer.
        assert_eq!(unsafe { cqs_new(kind, 1_048_577, 1, 1, 1, 0, &mut at) }, BAD_CONFIG);
        assert!(at.is_null());
        let l = Primitive::new(kind, 2, 3, 200, 2);
        for what in [DO_TRY, DO_STATE] {
            assert_eq!(l.call(what, 0, 0), bare(NO_CALL));
        }
        assert_eq!(l.call(DO_FINISH, 0, 0), bare(OWES_NOTHING));
        assert_eq!(l.call(DO_SPLIT, 0, 0), with(MADE, 1));
        assert_eq!(l.call(DO_ENTER, 1, 0), with(LATER, 0));
        assert_eq!(l.call(DO_POLL, 0, 0), bare(NO_WAIT));
        assert_eq!(l.call(DO_CANCEL, 1, 1), bare(NO_WAIT));
        assert_eq!(l.call(DO_ENTER, 1, 0), with(LATER, 1));
        assert_eq!(l.call(DO_ENTER, 1, 0), bare(FULL));
        assert_eq!(l.call(DO_MEET, 0, 1), bare(BUSY));
        assert_eq!(l.call(DO_CANCEL, 1, 0), bare(CANCELLED));
        assert_eq!(l.call(DO_POLL, 1, 1), bare(PENDING));
        // Waits that are given up before one that stays.
        for number in 2..72 {
            assert_eq!(l.call(DO_ENTER, 0, 0), with(LATER, number));
            assert_eq!(l.call(DO_CANCEL, 0, number as u64), bare(CANCELLED));
        }
        assert_eq!(l.call(DO_ENTER, 0, 0), with(LATER, 72));
        assert_eq!(l.call(DO_LEAVE, 1, 0), with(COUNTED, 1));
        assert_eq!(l.call(DO_LEAVE, 1, 0), bare(LAST));
        assert_eq!(l.call(DO_FINISH, 1, 0), bare(OWES_NOTHING));
        assert_eq!(l.call(DO_POLL, 1, 1), bare(THROUGH));
        assert_eq!(l.call(DO_POLL, 0, 72), bare(THROUGH));
        assert_eq!(l.call(DO_ENTER, 0, 0), bare(PASSED));
        assert_eq!(l.call(DO_LEAVE, 0, 0), bare(ALREADY));
        assert_eq!(l.call(DO_MEET, 0, 1), bare(MET));
        assert_eq!(l.call(DO_SOLE, 0, 0), with(SOLE, 1));
    }
}

#[test]
fn what_a_barrier_refuses() {
    for parties in [0, 33, u32::MAX] {
        let mut at = std::ptr::null_mut();
        // SAFETY: `at` is room for a pointer.
        assert_eq!(unsafe { cqs_new(KIND_BARRIER, parties, 1, 1, 1, 0, &mut at) }, BAD_CONFIG);
        assert!(at.is_null());
    }
    let b = Primitive::new(KIND_BARRIER, 3, 4, 200, 2);
    for what in [DO_TRY, DO_LEAVE, DO_STATE] {
        assert_eq!(b.call(what, 0, 0), bare(NO_CALL));
    }
    assert_eq!(b.call(DO_FINISH, 0, 0), bare(OWES_NOTHING));
    // A pass gives as many parties as it holds.
    for parties in [4, 1 << 32] {
        assert_eq!(b.call(DO_SPLIT, 0, parties), bare(NO_PARTY));
    }
    assert_eq!(b.call(DO_SPLIT, 0, 1), with(MADE, 1));
    assert_eq!(b.call(DO_SPLIT, 0, 3), bare(NO_PARTY));
    assert_eq!(b.call(DO_SPLIT, 0, 0), with(MADE, 2));
    assert_eq!(b.call(DO_ENTER, 2, 0), bare(NO_PARTY));
    assert_eq!(b.call(DO_ENTER, 1, 0), with(LATER, 0));
    assert_eq!(b.call(DO_ENTER, 1, 0), bare(NO_PARTY));
    assert_eq!(b.call(DO_POLL, 0, 0), bare(NO_WAIT));
    assert_eq!(b.call(DO_CANCEL, 1, 1), bare(NO_WAIT));
    assert_eq!(b.call(DO_POLL, 1, 0), bare(PENDING));
    assert_eq!(b.call(DO_MEET, 0, 1), bare(BUSY));
    assert_eq!(b.call(DO_CANCEL, 1, 0), bare(CANCELLED));
    assert_eq!(b.call(DO_MEET, 2, 1), bare(MET));
    // The parties went along.
    assert_eq!(b.call(DO_ENTER, 0, 0), with(LATER, 1));
    for number in 2..72 {
        assert_eq!(b.call(DO_ENTER, 0, 0), with(LATER, number));
        assert_eq!(b.call(DO_CANCEL, 0, number as u64), bare(CANCELLED));
    }
    assert_eq!(b.call(DO_ENTER, 0, 0), with(LATER, 72));
    assert_eq!(b.call(DO_ENTER, 0, 0), bare(FULL));
    assert_eq!(b.call(DO_ENTER, 2, 0), bare(LAST));
    assert_eq!(b.call(DO_POLL, 0, 1), bare(THROUGH));
    assert_eq!(b.call(DO_FINISH, 2, 0), bare(OWES_NOTHING));
    assert_eq!(b.call(DO_CANCEL, 0, 72), bare(TOO_LATE));
    assert_eq!(b.call(DO_ENTER, 0, 0), bare(NO_PARTY));
    assert_eq!(b.call(DO_MEET, 0, 2), bare(MET));
    assert_eq!(b.call(DO_SOLE, 0, 0), with(SOLE, 1));
}

/// What no primitive has.
#[test]
fn kinds_and_calls_that_are_not_there() {
    for kind in [6, u32::MAX] {
        let mut at = std::ptr::null_mut();
        // SAFETY: `at` is room for a pointer.
        assert_eq!(unsafe { cqs_new(kind, 1, 1, 1, 1, 0, &mut at) }, BAD_CONFIG);
        assert!(at.is_null());
    }
    let s = Semaphore::new(1, 2, 10, 2);
    // SAFETY: the semaphore is there until it is dropped.
    let call = |what, number| unsafe { cqs_call(s.0, what, 0, number) };
    for what in [10, 255, u32::MAX] {
        assert_eq!(call(what, 0), bare(NO_CALL));
    }
    assert_eq!(call(9, 1 << 32), bare(NO_PASS));
    assert_eq!(s.state(0), with(STATE, 1));
}

/// Two threads with one pass: of two calls at once one is refused, and the semaphore stays whole.
#[test]
fn one_pass_two_threads() {
    let s = Semaphore::new(1_000_000, 1, 10, 1);
    let calls = 20_000;
    let counted: Vec<(i64, u64)> = thread::scope(|scope| {
        let workers: Vec<_> = (0..2)
            .map(|_| {
                scope.spawn(|| {
                    let (mut held, mut refused) = (0, 0);
                    for call in 0..calls {
                        let answer = if call % 3 == 2 { s.release(0) } else { s.acquire(0) };
                        match answer.answer {
                            NOW => held += 1,
                            FREED => held -= 1,
                            IN_USE => refused += 1,
                            NO_PERMIT => {}
                            other => panic!("answered {other}"),
                        }
                    }
                    (held, refused)
                })
            })
            .collect();
        workers.into_iter().map(|worker| worker.join().unwrap()).collect()
    });
    let held: i64 = counted.iter().map(|(held, _)| held).sum();
    assert_eq!(s.state(0), with(STATE, 1_000_000 - held));
}
