//! What becomes of a permit of a synchronous semaphore that is given back.

use crate::ffi;
use crate::pass::{SyncPermit, SyncSemaphorePass};
use std::mem::ManuallyDrop;
use std::ptr;

/// What became of a permit that was given back, or of one that was on its way.
#[derive(Debug)]
#[must_use = "a permit that came back isn't gone"]
pub enum SyncReleased<'a> {
    /// Nobody waited for it, and it is free. Here is its pass.
    Freed(&'a mut SyncSemaphorePass),
    /// The caller of this number has it.
    Sent(u64, &'a mut SyncSemaphorePass),
    /// The caller of this number had left, and it is free.
    Void(u64, &'a mut SyncSemaphorePass),
    /// The caller of this number didn't come while the release looked. Here it is again.
    Broke(u64, SyncPermit<'a>),
    /// The caller of this number is about to leave. The rest is owed, and goes on once it has left.
    Handling(u64, SyncOwed<'a>),
    /// 64 numbers were passed over, or there is no slot for the next one. The rest is owed.
    Under(SyncOwed<'a>),
    /// No slot is free by now, and nothing has changed. Here it is again; a later try may succeed.
    Crowded(SyncPermit<'a>),
}

/// The rest of a release. Where it is dropped, it is finished, and what comes back is given again.
#[derive(Debug)]
#[must_use = "what is owed is finished at once, if it isn't kept"]
pub struct SyncOwed<'a> {
    pass: &'a mut SyncSemaphorePass,
}

impl<'a> SyncReleased<'a> {
    /// What a release or a finish with the pass comes to.
    pub(super) fn by(what: u32, pass: &'a mut SyncSemaphorePass) -> SyncReleased<'a> {
        let answer = pass.pass.give(what);
        let number = answer.number as u64;
        match answer.answer {
            ffi::FREED => SyncReleased::Freed(pass),
            ffi::SENT => SyncReleased::Sent(number, pass),
            ffi::VOID => SyncReleased::Void(number, pass),
            ffi::BROKE => SyncReleased::Broke(number, SyncPermit::of(pass)),
            ffi::HANDLING => SyncReleased::Handling(number, SyncOwed { pass }),
            ffi::UNDER => SyncReleased::Under(SyncOwed { pass }),
            ffi::CROWDED => SyncReleased::Crowded(SyncPermit::of(pass)),
            other => unreachable!("a release was answered {other}"),
        }
    }
}

impl<'a> SyncOwed<'a> {
    /// Goes on with it, and says what became of it: it is never `Freed` or `Crowded`.
    pub fn finish(self) -> SyncReleased<'a> {
        let this = ManuallyDrop::new(self);
        // SAFETY: `this` is not dropped, and its pass is read once.
        let pass = unsafe { ptr::read(&this.pass) };
        SyncReleased::by(ffi::DO_FINISH, pass)
    }
}

impl Drop for SyncOwed<'_> {
    fn drop(&mut self) {
        self.pass.pass.end_forgotten();
    }
}
