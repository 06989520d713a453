//! What the passes of a primitive share.

use crate::errors::{MakeError, expect_in};
use crate::ffi;
use crate::pass::PassError;
use crate::primitive::{MOST_PASSES, Primitive};
use std::sync::atomic::{AtomicU32, Ordering};

/// A primitive of the library, and which of its passes nobody has.
#[derive(Debug)]
pub(crate) struct Shared {
    primitive: Primitive,
    /// A bit for each pass that was made and that nobody has.
    idle: AtomicU32,
    /// A bit for each pass that nobody has, but that still has something, since there was no slot
    /// when it was to give it back.
    stuck: AtomicU32,
    /// What each of these has: the number of an element.
    elements: [AtomicU32; MOST_PASSES as usize],
}

impl Shared {
    /// The primitive of this kind, with so many passes, each of which has one wait at most.
    pub(crate) fn new(kind: u32, size: u32, passes: u32, limit: u64) -> Result<Shared, MakeError> {
        Shared::with_looks(kind, size, passes, limit, 0)
    }

    /// The same; of a synchronous semaphore a release looks so often at a permit that it holds out.
    pub(crate) fn with_looks(
        kind: u32,
        size: u32,
        passes: u32,
        limit: u64,
        looks: u32,
    ) -> Result<Shared, MakeError> {
        expect_in(1..=31, "passes", passes.into())?;
        // One pass more: pass 0 makes the others, and is nobody's.
        let primitive = Primitive::with_looks(kind, size, passes + 1, limit, 1, looks)?;
        let (idle, stuck) = (AtomicU32::new(0), AtomicU32::new(0));
        Ok(Shared { primitive, idle, stuck, elements: Default::default() })
    }

    /// One call. What is stuck is given back after it, if there is a slot for it by now.
    pub(crate) fn call(&self, what: u32, pass: u32, number: u64) -> ffi::Answer {
        let answer = self.primitive.call(what, pass, number);
        if self.stuck.load(Ordering::SeqCst) != 0 {
            self.give_stuck();
        }
        answer
    }

    /// Goes on with what the pass owes, to the end, and says whether it is gone: else, of a
    /// synchronous semaphore alone, its permit was taken back, and the pass has it again.
    pub(crate) fn finish_all(&self, pass: u32) -> bool {
        // A resumption may want the slot that another call is just about to give up, or come to a
        // caller who is about to leave.
        loop {
            match self.primitive.call(ffi::DO_FINISH, pass, 0).answer {
                ffi::UNDER | ffi::HANDLING => std::thread::yield_now(),
                answer => return answer != ffi::BROKE,
            }
        }
    }

    /// Gives back what the pass has, and says whether there was a slot for it: else the pass has it
    /// still. A permit that was taken back is given again.
    pub(crate) fn leave(&self, pass: u32, element: u32) -> bool {
        loop {
            match self.primitive.call(ffi::DO_LEAVE, pass, element.into()).answer {
                ffi::FREED | ffi::SENT | ffi::LEFT | ffi::VOID => return true,
                ffi::UNDER | ffi::HANDLING => {
                    if self.finish_all(pass) {
                        return true;
                    }
                }
                ffi::BROKE => std::thread::yield_now(),
                ffi::CROWDED => return false,
                other => unreachable!("a release was answered {other}"),
            }
        }
    }

    #[cold]
    fn give_stuck(&self) {
        let mut stuck = self.stuck.load(Ordering::SeqCst);
        while stuck != 0 {
            let pass = stuck.trailing_zeros();
            let bit = 1 << pass;
            stuck &= !bit;
            if self.stuck.fetch_and(!bit, Ordering::SeqCst) & bit == 0 {
                continue;
            }
            let element = self.elements[pass as usize].load(Ordering::SeqCst);
            self.give_up(pass, Some(element));
        }
    }

    /// Nobody has the pass any more. What it has is given back, now or after a later call.
    pub(crate) fn give_up(&self, pass: u32, has: Option<u32>) {
        match has {
            Some(element) if !self.leave(pass, element) => {
                self.elements[pass as usize].store(element, Ordering::SeqCst);
                self.stuck.fetch_or(1 << pass, Ordering::SeqCst);
            }
            _ => self.put_idle(pass),
        }
    }

    /// A pass, for one caller: one that another caller gave up, or a new one. Where another thread
    /// makes one just now, it yields to it, and tries again.
    pub(crate) fn pass(&self) -> Result<u32, PassError> {
        self.pass_with(0)
    }

    /// The same, of a barrier: the pass has so many parties.
    pub(crate) fn pass_with(&self, parties: u64) -> Result<u32, PassError> {
        loop {
            if let Some(number) = self.take_idle() {
                return Ok(number);
            }
            let made = self.call(ffi::DO_SPLIT, 0, parties);
            match made.answer {
                ffi::MADE => return Ok(made.number as u32),
                // Of a barrier the library says of a party what it says of a permit.
                ffi::CROWD | ffi::NO_PERMIT => return Err(PassError::Crowded),
                ffi::MEMORY => return Err(PassError::Memory),
                ffi::IN_USE => std::thread::yield_now(),
                other => unreachable!("a split was answered {other}"),
            }
        }
    }

    /// A pass that was made and that nobody has.
    fn take_idle(&self) -> Option<u32> {
        let mut idle = self.idle.load(Ordering::Acquire);
        while idle != 0 {
            let number = idle.trailing_zeros();
            let rest = idle & (idle - 1);
            match self.idle.compare_exchange(idle, rest, Ordering::AcqRel, Ordering::Acquire) {
                Ok(_) => return Some(number),
                Err(now) => idle = now,
            }
        }
        None
    }

    /// A pass comes back that nobody has any more.
    pub(crate) fn put_idle(&self, number: u32) {
        self.idle.fetch_or(1 << number, Ordering::AcqRel);
    }
}
