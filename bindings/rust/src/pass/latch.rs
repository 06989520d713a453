//! A count-down latch.

use crate::errors::{MakeError, WaitError, expect_in};
use crate::ffi;
use crate::pass::PassError;
use crate::pass::shared::Shared;
use crate::primitive::MOST_LATCH_LIMIT;
use std::mem::ManuallyDrop;
use std::ptr;
use std::sync::Arc;

/// How a wait that is given up leaves the latch.
#[derive(Clone, Copy, Debug, PartialEq, Eq)]
pub enum LatchMode {
    /// It is counted out, and nobody resumes for it.
    Smart,
    /// Its number stays behind, and the resumption that comes for it ends there.
    Simple,
}

/// How a latch is made.
#[derive(Clone, Copy, Debug, PartialEq, Eq)]
pub struct LatchConfig {
    /// How often it is to be counted down, up to 1,048,576. One of 0 is open.
    pub count: u32,
    /// How a wait that is given up leaves it.
    pub mode: LatchMode,
    /// How many passes there may be at once, from 1 to 31.
    pub passes: u32,
    /// How many waits may be drawn in all, from 1 to 4,294,967,232.
    pub limit: u64,
}

impl Default for LatchConfig {
    /// One count, the smart mode, and as many passes and waits as there may be.
    fn default() -> LatchConfig {
        LatchConfig { count: 1, mode: LatchMode::Smart, passes: 31, limit: MOST_LATCH_LIMIT }
    }
}

/// A count-down latch: it opens once it was counted down as often as it was made for, and then all
/// who wait pass. Clones are the same latch.
///
/// ```
/// use cqs::pass::{Down, Entered, Latch};
///
/// let latch = Latch::new(Default::default()).unwrap();
/// let (mut one, mut two) = (latch.pass().unwrap(), latch.pass().unwrap());
/// let Ok(Entered::Later(wait)) = one.wait() else { panic!("it is closed") };
/// assert_eq!(two.count_down(), Down::Last);
/// assert!(wait.poll().is_ok());
/// ```
#[derive(Clone, Debug)]
pub struct Latch {
    shared: Arc<Shared>,
}

impl Latch {
    /// A latch.
    pub fn new(config: LatchConfig) -> Result<Latch, MakeError> {
        let LatchConfig { count, mode, passes, limit } = config;
        expect_in(0..=1_048_576, "count", count.into())?;
        let kind = match mode {
            LatchMode::Smart => ffi::KIND_LATCH,
            LatchMode::Simple => ffi::KIND_SIMPLE_LATCH,
        };
        let shared = Shared::new(kind, count, passes, limit)?;
        Ok(Latch { shared: Arc::new(shared) })
    }

    /// A pass, for one caller: one that another caller gave up, or a new one.
    pub fn pass(&self) -> Result<LatchPass, PassError> {
        let number = self.shared.pass()?;
        Ok(LatchPass { shared: self.shared.clone(), number, wait: None })
    }
}

/// What one caller works with. It may go to another thread, and is used by one at a time.
#[derive(Debug)]
pub struct LatchPass {
    shared: Arc<Shared>,
    number: u32,
    /// The wait that it has.
    wait: Option<u64>,
}

/// What became of a count down.
#[derive(Clone, Copy, Debug, PartialEq, Eq)]
pub enum Down {
    /// So many are left.
    Left(u32),
    /// It was the last one: the latch is open, and each who waited was resumed.
    Last,
    /// The count was used up before.
    Already,
    /// Nothing was counted: there is no slot to wake others with. A later try may succeed, once some
    /// have stopped waiting.
    Crowded,
}

/// What became of a wait.
#[derive(Debug)]
#[must_use = "a wait that isn't kept leaves the line at once"]
pub enum Entered<'a> {
    /// The count was used up.
    Passed,
    /// The caller waits in line.
    Later(LatchWait<'a>),
}

/// What became of a wait that was given up.
#[derive(Clone, Copy, Debug, PartialEq, Eq)]
pub enum LatchEnd {
    /// It has left the line.
    Gone,
    /// The latch was opened, and the wait served before.
    TooLate,
}

impl LatchPass {
    /// Counts the latch down.
    pub fn count_down(&mut self) -> Down {
        let answer = self.shared.call(ffi::DO_LEAVE, self.number, 0);
        match answer.answer {
            ffi::COUNTED => Down::Left(answer.number as u32),
            ffi::LAST => Down::Last,
            ffi::LAST_OWING => {
                self.shared.finish_all(self.number);
                Down::Last
            }
            ffi::ALREADY => Down::Already,
            ffi::CROWDED => Down::Crowded,
            other => unreachable!("a count down was answered {other}"),
        }
    }

    /// Passes where the count is used up, and else waits in line.
    pub fn wait(&mut self) -> Result<Entered<'_>, WaitError> {
        self.end_forgotten();
        let answer = self.shared.call(ffi::DO_ENTER, self.number, 0);
        match answer.answer {
            ffi::PASSED => Ok(Entered::Passed),
            ffi::LATER => {
                let number = answer.number as u64;
                self.wait = Some(number);
                Ok(Entered::Later(LatchWait { pass: self, number }))
            }
            ffi::WORN => Err(WaitError::Worn),
            ffi::CROWDED => Err(WaitError::Crowded),
            other => unreachable!("a wait was answered {other}"),
        }
    }

    /// Waits until the latch is open, and lets other threads run between two looks.
    pub fn wait_yielding(&mut self) -> Result<(), WaitError> {
        let Entered::Later(mut wait) = self.wait()? else { return Ok(()) };
        while let Err(again) = wait.poll() {
            wait = again;
            std::thread::yield_now();
        }
        Ok(())
    }

    /// Looks at its wait, and says whether the latch was opened.
    fn look(&mut self, wait: u64) -> bool {
        match self.shared.call(ffi::DO_POLL, self.number, wait).answer {
            ffi::THROUGH => {
                self.wait = None;
                true
            }
            ffi::PENDING => false,
            other => unreachable!("a poll was answered {other}"),
        }
    }

    /// What was forgotten, by `mem::forget`, is ended.
    fn end_forgotten(&mut self) {
        if let Some(wait) = self.wait {
            self.end(wait);
        }
    }

    /// Ends its wait.
    fn end(&mut self, wait: u64) -> LatchEnd {
        self.wait = None;
        match self.shared.call(ffi::DO_CANCEL, self.number, wait).answer {
            ffi::CANCELLED => LatchEnd::Gone,
            ffi::CANCELLED_OWING => {
                self.shared.finish_all(self.number);
                LatchEnd::Gone
            }
            ffi::TOO_LATE => LatchEnd::TooLate,
            other => unreachable!("a cancel was answered {other}"),
        }
    }
}

impl Drop for LatchPass {
    fn drop(&mut self) {
        self.end_forgotten();
        self.shared.put_idle(self.number);
    }
}

/// A wait in line. It leaves the line when it is dropped.
#[derive(Debug)]
#[must_use = "a wait that isn't kept leaves the line at once"]
pub struct LatchWait<'a> {
    pass: &'a mut LatchPass,
    number: u64,
}

impl<'a> LatchWait<'a> {
    /// The number of the wait.
    pub fn number(&self) -> u64 {
        self.number
    }

    /// The pass, of which this wait is no more.
    fn into_pass(self) -> &'a mut LatchPass {
        let this = ManuallyDrop::new(self);
        // SAFETY: `this` is not dropped, and its pass is read once.
        unsafe { ptr::read(&this.pass) }
    }

    /// Looks whether the latch was opened: then here is the pass again.
    pub fn poll(self) -> Result<&'a mut LatchPass, LatchWait<'a>> {
        if self.pass.look(self.number) { Ok(self.into_pass()) } else { Err(self) }
    }

    /// Gives the wait up. Here is the pass again.
    pub fn cancel(self) -> (LatchEnd, &'a mut LatchPass) {
        let number = self.number;
        let pass = self.into_pass();
        (pass.end(number), pass)
    }
}

impl Drop for LatchWait<'_> {
    fn drop(&mut self) {
        self.pass.end(self.number);
    }
}
