//! A count-down latch.

use crate::errors::{MakeError, TimeoutError, WaitError, expect_in};
use crate::ffi::{self, Answer};
use crate::gate::Gate;
use crate::line::without_deadline;
use crate::passes::Turns;
use crate::passes::{Passes, Waiters};
use crate::primitive::{MOST_LATCH_LIMIT, MOST_PASSES, Primitive, WAITERS, room_of};
use crate::sleeper::deadline_after;
use std::fmt;
use std::future::Future;
use std::pin::Pin;
use std::task::{Context, Poll};
use std::time::{Duration, Instant};

/// How a [`Latch`] is made.
///
/// ```
/// use cqs::{Latch, LatchConfig};
///
/// let latch = Latch::with_config(LatchConfig { count: 0, ..Default::default() }).unwrap();
/// assert!(latch.is_open());
/// ```
#[derive(Clone, Copy, Debug, PartialEq, Eq)]
pub struct LatchConfig {
    /// How often it is to be counted down, up to 1,048,576. One of 0 is open.
    pub count: usize,
    /// How many waits may be drawn in all, from 1 to 4,294,967,232: one by each caller who finds it
    /// closed. It costs nothing.
    pub limit: u64,
    /// For how many who wait at once there is room, from 1 to 1,048,576. Each takes 20 bytes.
    pub waiters: usize,
}

impl Default for LatchConfig {
    /// One count, as many waits as may be drawn, and room for 4,096 who wait at once.
    fn default() -> LatchConfig {
        LatchConfig { count: 1, limit: MOST_LATCH_LIMIT, waiters: WAITERS }
    }
}

/// What became of a count down.
///
/// ```
/// use cqs::{CountDown, Latch};
///
/// let latch = Latch::new(1);
/// if latch.count_down() == CountDown::Last {
///     assert!(latch.is_open());
/// }
/// ```
#[derive(Clone, Copy, Debug, PartialEq, Eq)]
pub enum CountDown {
    /// So many are left.
    Left(usize),
    /// It was the last one: the latch is open.
    Last,
    /// The count was used up before.
    Already,
}

/// A count-down latch, for any number of threads and tasks: it opens once it was counted down as
/// often as it was made for, and then all who wait pass. It stays open.
///
/// # Examples
///
/// ```
/// use cqs::Latch;
/// use std::thread;
///
/// let done = Latch::new(3);
/// thread::scope(|scope| {
///     for _ in 0..3 {
///         scope.spawn(|| done.count_down());
///     }
///     done.wait_blocking().expect("it isn't worn");
/// });
/// assert!(done.is_open());
/// ```
///
/// ```
/// use cqs::{Latch, WaitError};
///
/// async fn begin(start: &Latch) -> Result<(), WaitError> {
///     start.wait().await
/// }
/// # use std::future::Future;
/// # let latch = Latch::new(0);
/// # let mut cx = std::task::Context::from_waker(std::task::Waker::noop());
/// # assert!(std::pin::pin!(begin(&latch)).poll(&mut cx).is_ready());
/// ```
pub struct Latch {
    passes: Passes<Gate>,
}

/// A wait in line.
#[derive(Clone, Copy, Debug)]
struct Ticket {
    pass: u32,
    number: u64,
}

impl Latch {
    /// A latch that is to be counted down so often, with room for 4,096 who wait at once.
    ///
    /// # Panics
    ///
    /// Where the count is above 1,048,576, or there is no memory: [`Latch::with_config`] says so.
    #[must_use]
    #[track_caller]
    pub fn new(count: usize) -> Latch {
        let made = Latch::with_config(LatchConfig { count, ..Default::default() });
        made.unwrap_or_else(|error| panic!("no latch: {error}"))
    }

    /// A latch.
    pub fn with_config(config: LatchConfig) -> Result<Latch, MakeError> {
        let LatchConfig { count, limit, waiters } = config;
        expect_in(0..=1_048_576, "count", count as u64)?;
        let (kind, room) = (ffi::KIND_LATCH, room_of(waiters)?);
        let primitive = Primitive::new(kind, count as u32, MOST_PASSES, limit, room)?;
        let latch = Latch { passes: Passes::new(primitive, Gate::default()) };
        if count == 0 {
            latch.gate().open();
        }
        Ok(latch)
    }

    fn gate(&self) -> &Gate {
        &self.passes.waiters
    }

    /// Counts it down. The last one wakes all who wait.
    ///
    /// ```
    /// use cqs::{CountDown, Latch};
    ///
    /// let latch = Latch::new(2);
    /// assert_eq!(latch.count_down(), CountDown::Left(1));
    /// assert_eq!(latch.count_down(), CountDown::Last);
    /// assert_eq!(latch.count_down(), CountDown::Already);
    /// ```
    pub fn count_down(&self) -> CountDown {
        let mut turns = Turns::new();
        loop {
            let (_, answer) = self.passes.call_any(ffi::DO_LEAVE, self.passes.home());
            match answer.answer {
                ffi::COUNTED => return CountDown::Left(answer.number as usize),
                ffi::LAST | ffi::LAST_OWING => {
                    self.gate().open();
                    return CountDown::Last;
                }
                ffi::ALREADY => return CountDown::Already,
                // Every pass was seen without a spare slot. One that was used to wait at this latch
                // keeps one, so another call has taken it just now.
                ffi::CROWDED => turns.wait(),
                other => unreachable!("a count down was answered {other}"),
            }
        }
    }

    /// Whether it is open, and who waits passes.
    #[must_use]
    pub fn is_open(&self) -> bool {
        self.gate().is_open()
    }

    /// Waits until it is open. Dropped before, the future leaves the line.
    pub async fn wait(&self) -> Result<(), WaitError> {
        Waiting { latch: self, stage: Stage::New }.await
    }

    /// Waits until it is open. The thread sleeps.
    pub fn wait_blocking(&self) -> Result<(), WaitError> {
        self.wait_until(None).map_err(without_deadline)
    }

    /// Waits until it is open, or until the time is over. The thread sleeps.
    ///
    /// ```
    /// use cqs::{Latch, TimeoutError};
    /// use std::time::Duration;
    ///
    /// let latch = Latch::new(1);
    /// let late = latch.wait_timeout(Duration::from_millis(1));
    /// assert_eq!(late, Err(TimeoutError::TimedOut));
    /// latch.count_down();
    /// assert_eq!(latch.wait_timeout(Duration::ZERO), Ok(()));
    /// ```
    pub fn wait_timeout(&self, time: Duration) -> Result<(), TimeoutError> {
        self.wait_until(deadline_after(time))
    }

    fn wait_until(&self, deadline: Option<Instant>) -> Result<(), TimeoutError> {
        let Some(ticket) = self.come()? else { return Ok(()) };
        let passed = self.gate().pass(ticket.number, deadline);
        self.end(ticket);
        passed
    }

    /// Passes, or comes to the line.
    fn come(&self) -> Result<Option<Ticket>, WaitError> {
        if self.is_open() {
            return Ok(None);
        }
        let (pass, answer) = self.passes.call_any(ffi::DO_ENTER, self.passes.home());
        match answer.answer {
            ffi::PASSED => Ok(None),
            ffi::LATER => Ok(Some(Ticket { pass, number: answer.number as u64 })),
            ffi::WORN => Err(WaitError::Worn),
            ffi::CROWDED => Err(WaitError::Crowded),
            other => unreachable!("a wait was answered {other}"),
        }
    }

    /// Ends a wait. Where the latch is open it has been served, or is about to be: by somebody who
    /// is leaving, to whom the resumption was left.
    fn end(&self, Ticket { pass, number }: Ticket) {
        if self.is_open() {
            let answer = self.passes.call(ffi::DO_POLL, pass, number).answer;
            if answer == ffi::THROUGH {
                return;
            }
        }
        self.passes.call(ffi::DO_CANCEL, pass, number);
    }
}

impl Waiters for Gate {
    fn hear(passes: &Passes<Gate>, answer: Answer) {
        if let ffi::LAST | ffi::FINISHED = answer.answer {
            passes.waiters.open();
        }
    }
}

impl fmt::Debug for Latch {
    fn fmt(&self, f: &mut fmt::Formatter<'_>) -> fmt::Result {
        f.debug_struct("Latch").field("is_open", &self.is_open()).finish_non_exhaustive()
    }
}

/// A future that waits. Dropped, it leaves the line.
struct Waiting<'a> {
    latch: &'a Latch,
    stage: Stage,
}

enum Stage {
    New,
    InLine(Ticket),
    Over,
}

impl Future for Waiting<'_> {
    type Output = Result<(), WaitError>;

    fn poll(mut self: Pin<&mut Self>, cx: &mut Context<'_>) -> Poll<Self::Output> {
        let latch = self.latch;
        let ticket = match self.stage {
            Stage::New => match latch.come() {
                Ok(Some(ticket)) => {
                    self.stage = Stage::InLine(ticket);
                    ticket
                }
                Ok(None) => return Poll::Ready(Ok(())),
                Err(worn) => return Poll::Ready(Err(worn)),
            },
            Stage::InLine(ticket) => ticket,
            Stage::Over => panic!("a future was polled after it was ready"),
        };
        if !latch.gate().register(ticket.number, cx.waker()) {
            return Poll::Pending;
        }
        self.stage = Stage::Over;
        latch.end(ticket);
        Poll::Ready(Ok(()))
    }
}

impl Drop for Waiting<'_> {
    fn drop(&mut self) {
        if let Stage::InLine(ticket) = self.stage {
            self.latch.gate().strike(ticket.number);
            self.latch.end(ticket);
        }
    }
}
