//! What a semaphore, a mutex and a pool have in common: permits or elements that are taken and
//! given back, and a line of those who wait.
//!
//! ```text
//!  take --- one is at hand, and nobody waits -------------------------> it has it
//!    |
//!    '----- else it counts itself among those who wait, and asks the library
//!              |-- one is free -------------------------------------> it has it
//!              '-- none is: it is in line, and sleeps or is polled --> it looks, and has it
//!
//!  give --- nobody waits: it stays at hand
//!    '----- somebody does: to the library, which gives it to the first in line
//! ```
//!
//! **Nothing stays at hand while somebody waits.** Who gives counts first, by putting it at hand,
//! and looks then whether somebody waits; if so, it takes it back, and gives it to the library. Who
//! comes to wait counts itself first, and then looks for what is at hand. All of these steps are in
//! one order, so one of the two sees the other. Who isn't the first to wait needn't look: the first
//! one does, and nothing was put at hand, and left there, after that one came.
//!
//! **Nobody overtakes the line.** What is at hand is taken only by who found that nobody waited.

use crate::errors::{TimeoutError, WaitError};
use crate::ffi::{self, Answer};
use crate::passes::{Passes, Turns, Waiters};
use crate::primitive::Primitive;
use crate::sleeper::{Sleeper, deadline_after};
use crate::spares::{Apart, Spares};
use crate::wakers::{Found, Look, Wakers, lock};
use std::future::Future;
use std::pin::Pin;
use std::sync::atomic::{AtomicBool, AtomicUsize, Ordering};
use std::task::{Context, Poll, Waker};
use std::time::{Duration, Instant};

/// With so many who wait, further waits are spread over all passes.
const LONG: usize = 64;

/// A permit or an element that somebody has, and the pass that has it for him.
#[derive(Clone, Copy, Debug)]
pub(crate) struct Held {
    pass: u32,
    pub(crate) element: u32,
}

/// A wait in line.
#[derive(Clone, Copy, Debug)]
pub(crate) struct Ticket {
    pass: u32,
    number: u64,
    /// How often something had been left to a waiter who was leaving, before this one came.
    lefts: u32,
}

/// What became of a take.
#[derive(Debug)]
pub(crate) enum Taken {
    Now(Held),
    Later(Ticket),
    Refused(WaitError),
}

/// Permits or elements, and the line of those who wait for them.
#[derive(Debug)]
pub(crate) struct Line<S> {
    passes: Passes<Wakers>,
    spares: S,
    /// So many wait, or are about to come or to go.
    waiting: Apart<AtomicUsize>,
    /// As many waits were drawn as may be.
    is_worn: AtomicBool,
}

impl<S: Spares> Line<S> {
    /// The line of a primitive, in which so many elements lie.
    pub(crate) fn new(primitive: Primitive, spares: S, elements: u32) -> Line<S> {
        Line {
            passes: Passes::new(primitive, Wakers::new(elements)),
            spares,
            waiting: Apart(AtomicUsize::new(0)),
            is_worn: AtomicBool::new(false),
        }
    }

    /// Takes what the pass of this thread has at hand, if nobody waits.
    #[inline]
    pub(crate) fn take_at_hand(&self) -> Option<Held> {
        if self.waiting.0.load(Ordering::SeqCst) != 0 {
            return None;
        }
        let pass = self.passes.place();
        let element = self.spares.take(pass)?;
        Some(Held { pass, element })
    }

    /// Takes what is free, or comes to the line.
    fn take(&self) -> Taken {
        if let Some(held) = self.take_at_hand() {
            return Taken::Now(held);
        }
        let home = self.passes.home();
        if self.is_worn.load(Ordering::Relaxed) {
            return self.try_take().map_or(Taken::Refused(WaitError::Worn), Taken::Now);
        }
        let before = match self.announce(home) {
            Ok(before) => before,
            Err(held) => return Taken::Now(held),
        };
        let first = if before < LONG { home } else { self.passes.next() };
        let lefts = self.lefts();
        let (pass, answer) = self.passes.call_any(ffi::DO_ENTER, first);
        match answer.answer {
            ffi::NOW | ffi::TOOK => {
                self.go();
                Taken::Now(self.found_inside(pass, answer))
            }
            ffi::LATER => Taken::Later(Ticket { pass, number: answer.number as u64, lefts }),
            ffi::WORN => {
                self.is_worn.store(true, Ordering::Relaxed);
                self.turn_away(WaitError::Worn)
            }
            ffi::CROWDED => self.turn_away(WaitError::Crowded),
            other => unreachable!("a caller who came was answered {other}"),
        }
    }

    /// Who can't wait takes what is free, all the same.
    #[cold]
    fn turn_away(&self, why: WaitError) -> Taken {
        self.go();
        self.try_take().map_or(Taken::Refused(why), Taken::Now)
    }

    /// One more waits; says how many did before. The first one takes what some pass has at hand, and
    /// waits no more.
    fn announce(&self, home: u32) -> Result<usize, Held> {
        let before = self.waiting.0.fetch_add(1, Ordering::SeqCst);
        if before > 0 {
            return Ok(before);
        }
        let Some(held) = self.take_spare(home) else { return Ok(0) };
        if self.go() > 0 {
            // They came later, and left it to this one to look for what is at hand.
            self.hand_over();
        }
        Err(held)
    }

    fn lefts(&self) -> u32 {
        self.passes.waiters.lefts.load(Ordering::SeqCst)
    }

    /// One fewer waits; says how many still do.
    fn go(&self) -> usize {
        self.waiting.0.fetch_sub(1, Ordering::SeqCst) - 1
    }

    /// What some pass has at hand.
    fn take_spare(&self, home: u32) -> Option<Held> {
        let count = self.passes.count();
        (home..count).chain(0..home).find_map(|pass| {
            let element = self.spares.take(pass)?;
            Some(Held { pass, element })
        })
    }

    /// Gives what is at hand to the library.
    #[cold]
    fn hand_over(&self) {
        while let Some(held) = self.take_spare(0) {
            self.leave(held);
        }
    }

    /// Takes what is free, and never waits.
    #[inline]
    pub(crate) fn try_take(&self) -> Option<Held> {
        self.take_at_hand().or_else(|| self.try_elsewhere())
    }

    #[inline(never)]
    fn try_elsewhere(&self) -> Option<Held> {
        let home = self.passes.home();
        if self.waiting.0.load(Ordering::SeqCst) == 0 {
            if let Some(held) = self.take_spare(home) {
                return Some(held);
            }
        }
        loop {
            let (pass, answer) = self.passes.call_any(ffi::DO_TRY, home);
            match answer.answer {
                ffi::GOT => return Some(Held { pass, element: 0 }),
                ffi::CONTENDED => {}
                ffi::NONE_FREE => return None,
                ffi::NO_CALL => return self.try_inside(home),
                other => unreachable!("a try was answered {other}"),
            }
        }
    }

    /// Takes an element that may lie free in a pool's library, which has no try: it comes, and
    /// leaves the line at once where none is free.
    fn try_inside(&self, home: u32) -> Option<Held> {
        let inside = self.passes.waiters.inside.load(Ordering::SeqCst);
        if inside == 0 || self.is_worn.load(Ordering::Relaxed) {
            return None;
        }
        if let Err(held) = self.announce(home) {
            return Some(held);
        }
        let (pass, answer) = self.passes.call_any(ffi::DO_ENTER, home);
        let held = match answer.answer {
            ffi::TOOK => Some(self.found_inside(pass, answer)),
            ffi::LATER => {
                self.count_inside_down(inside);
                let ticket = Ticket { pass, number: answer.number as u64, lefts: self.lefts() };
                self.passes.waiters.register(ticket.number, pass, Waker::noop().clone());
                return self.quit(ticket);
            }
            ffi::WORN => {
                self.is_worn.store(true, Ordering::Relaxed);
                None
            }
            ffi::CROWDED => None,
            other => unreachable!("a caller who came was answered {other}"),
        };
        self.go();
        held
    }

    /// What lay free in the library.
    fn found_inside(&self, pass: u32, answer: Answer) -> Held {
        if answer.answer == ffi::TOOK {
            self.count_inside_down(1);
        }
        held(pass, answer)
    }

    fn count_inside_down(&self, by: u32) {
        let inside = &self.passes.waiters.inside;
        let less = |inside: u32| Some(inside.saturating_sub(by));
        let _ = inside.fetch_update(Ordering::SeqCst, Ordering::SeqCst, less);
    }

    /// Gives back what somebody has.
    #[inline]
    pub(crate) fn give(&self, held: Held) {
        if self.waiting.0.load(Ordering::SeqCst) != 0 {
            return self.leave(held);
        }
        self.spares.put(held.pass, held.element);
        if self.waiting.0.load(Ordering::SeqCst) != 0 {
            self.take_back(held.pass);
        }
    }

    /// Somebody has come to wait while something was put at hand.
    #[cold]
    fn take_back(&self, pass: u32) {
        if let Some(element) = self.spares.take(pass) {
            self.leave(Held { pass, element });
        }
    }

    /// Gives it to the library, and wakes whom it serves.
    #[inline(never)]
    fn leave(&self, held: Held) {
        self.passes.leave(held.pass, held.element);
    }

    /// A waiter registers, and looks where it may have been served before.
    pub(crate) fn join(&self, ticket: Ticket, waker: Waker) -> Option<Held> {
        let is_served = self.passes.waiters.register(ticket.number, ticket.pass, waker);
        if !is_served && self.lefts() == ticket.lefts {
            return None;
        }
        let answer = self.passes.call(ffi::DO_POLL, ticket.pass, ticket.number);
        if answer.answer == ffi::PENDING {
            return None;
        }
        let found = self.passes.waiters.remove(ticket.number);
        self.go();
        Some(self.found(ticket, answer, found))
    }

    /// What a waiter has that was served.
    pub(crate) fn collect(&self, ticket: Ticket) -> Held {
        let answer = self.passes.call(ffi::DO_POLL, ticket.pass, ticket.number);
        let found = match answer.answer {
            ffi::NO_WAIT => self.passes.waiters.remove(ticket.number),
            _ => Found::Served,
        };
        self.go();
        self.found(ticket, answer, found)
    }

    /// What its own look has found, or the look that somebody made for it.
    fn found(&self, ticket: Ticket, answer: Answer, found: Found) -> Held {
        match found {
            Found::Has(element) => Held { pass: ticket.pass, element },
            Found::Served | Found::Waits => held(ticket.pass, answer),
        }
    }

    /// A waiter leaves, and has what had come before, if something had.
    pub(crate) fn quit(&self, ticket: Ticket) -> Option<Held> {
        let Ticket { pass, number, .. } = ticket;
        match self.passes.waiters.remove(number) {
            Found::Waits => {}
            Found::Served => return Some(self.collect(ticket)),
            Found::Has(element) => {
                self.go();
                return Some(Held { pass, element });
            }
        }
        let lefts = self.lefts();
        let answer = self.passes.call(ffi::DO_CANCEL, pass, number);
        let came = answer.answer == ffi::TOO_LATE;
        if !came && self.lefts() != lefts {
            look_for_others(&self.passes);
        }
        self.go();
        came.then(|| held(pass, answer))
    }

    /// The same, where nobody is there any more to have it.
    #[inline(never)]
    fn quit_and_give(&self, ticket: Ticket) {
        if let Some(held) = self.quit(ticket) {
            self.give(held);
        }
    }

    /// Takes, and sleeps in line until something comes, or until the time is over.
    #[inline]
    pub(crate) fn take_within(&self, time: Duration) -> Result<Held, TimeoutError> {
        match self.take_at_hand() {
            Some(held) => Ok(held),
            None => self.take_until(deadline_after(time)),
        }
    }

    /// Takes, and sleeps in line until something comes.
    #[inline]
    pub(crate) fn take_blocking(&self) -> Result<Held, WaitError> {
        match self.take_at_hand() {
            Some(held) => Ok(held),
            None => self.take_until(None).map_err(without_deadline),
        }
    }

    #[inline(never)]
    fn take_until(&self, deadline: Option<Instant>) -> Result<Held, TimeoutError> {
        let ticket = match self.take() {
            Taken::Now(held) => return Ok(held),
            Taken::Later(ticket) => ticket,
            Taken::Refused(why) => return Err(why.into()),
        };
        let sleeper = Sleeper::new();
        if let Some(held) = self.join(ticket, sleeper.waker()) {
            return Ok(held);
        }
        if sleeper.sleep(deadline) {
            return Ok(self.collect(ticket));
        }
        self.quit(ticket).ok_or(TimeoutError::TimedOut)
    }

    /// A future that takes. Dropped, it leaves the line.
    pub(crate) fn coming(&self) -> Coming<'_, S> {
        Coming { line: self, stage: Stage::New }
    }

    /// How many are free. What others do at the same time may be seen in part.
    pub(crate) fn free(&self) -> usize {
        let at_hand: u32 = (0..self.passes.count()).map(|pass| self.spares.count(pass)).sum();
        let (_, answer) = self.passes.call_any(ffi::DO_STATE, self.passes.home());
        at_hand as usize + usize::try_from(answer.number).unwrap_or(0)
    }
}

/// Why a call with no deadline got nothing.
pub(crate) fn without_deadline(error: TimeoutError) -> WaitError {
    match error {
        TimeoutError::Worn => WaitError::Worn,
        TimeoutError::Crowded => WaitError::Crowded,
        TimeoutError::TimedOut => unreachable!("there is no deadline"),
    }
}

/// What an answer says that a pass has got.
fn held(pass: u32, answer: Answer) -> Held {
    match answer.answer {
        ffi::NOW | ffi::GRANTED => Held { pass, element: 0 },
        ffi::TOOK => Held { pass, element: answer.number as u32 },
        // Of a pool with the number of the element.
        ffi::TOO_LATE => Held { pass, element: u32::try_from(answer.number).unwrap_or(0) },
        other => unreachable!("a waiter who was served was answered {other}"),
    }
}

impl Waiters for Wakers {
    #[inline]
    fn hear(passes: &Passes<Wakers>, answer: Answer) {
        match answer.answer {
            ffi::SENT => passes.waiters.wake(answer.number as u64),
            ffi::LEFT => look_for_others(passes),
            _ => {}
        }
    }
}

/// A release was left in a cell: for the call that just comes to wait there, which takes it, or for
/// a waiter who is just leaving. That one passes it on, and nobody is told to whom. So the others
/// who wait are looked for: by who was told that something was left, and by each whose leaving went
/// on at that time. Of the two the later one finds who was served.
#[cold]
fn look_for_others(passes: &Passes<Wakers>) {
    // Whoever leaves just now may have got it from one who left before, and looks then, too.
    passes.waiters.lefts.fetch_add(1, Ordering::SeqCst);
    passes.waiters.inside.fetch_add(1, Ordering::SeqCst);
    let mut woken = Vec::new();
    for part in passes.waiters.parts() {
        let mut turns = Turns::new();
        loop {
            let look = |pass, number| {
                let answer = passes.glance(pass, number);
                match answer.answer {
                    ffi::PENDING | ffi::NO_WAIT => Look::Pending,
                    ffi::IN_USE | ffi::OWES => Look::Later,
                    _ => Look::Came(held(pass, answer).element),
                }
            };
            let Some(pass) = lock(part).look_for_all(look, &mut woken) else { break };
            passes.settle(pass);
            turns.wait();
        }
    }
    for waker in woken {
        waker.wake();
    }
}

/// A future that takes. Dropped, it leaves the line, and what had come to it goes to the next.
#[derive(Debug)]
pub(crate) struct Coming<'a, S: Spares> {
    line: &'a Line<S>,
    stage: Stage,
}

#[derive(Debug)]
enum Stage {
    New,
    InLine(Ticket),
    Over,
}

impl<S: Spares> Future for Coming<'_, S> {
    type Output = Result<Held, WaitError>;

    #[inline]
    fn poll(mut self: Pin<&mut Self>, cx: &mut Context<'_>) -> Poll<Self::Output> {
        if let Stage::New = self.stage {
            if let Some(held) = self.line.take_at_hand() {
                self.stage = Stage::Over;
                return Poll::Ready(Ok(held));
            }
        }
        self.poll_line(cx)
    }
}

impl<S: Spares> Coming<'_, S> {
    #[inline(never)]
    fn poll_line(&mut self, cx: &mut Context<'_>) -> Poll<Result<Held, WaitError>> {
        let line = self.line;
        let held = match self.stage {
            Stage::New => match line.take() {
                Taken::Now(held) => held,
                Taken::Later(ticket) => match line.join(ticket, cx.waker().clone()) {
                    Some(held) => held,
                    None => {
                        self.stage = Stage::InLine(ticket);
                        return Poll::Pending;
                    }
                },
                Taken::Refused(why) => {
                    self.stage = Stage::Over;
                    return Poll::Ready(Err(why));
                }
            },
            Stage::InLine(ticket) => match line.passes.waiters.check(ticket.number, cx.waker()) {
                Found::Waits => return Poll::Pending,
                Found::Served => line.collect(ticket),
                Found::Has(element) => {
                    line.go();
                    Held { pass: ticket.pass, element }
                }
            },
            Stage::Over => panic!("a future was polled after it was ready"),
        };
        self.stage = Stage::Over;
        Poll::Ready(Ok(held))
    }
}

impl<S: Spares> Drop for Coming<'_, S> {
    #[inline]
    fn drop(&mut self) {
        if let Stage::InLine(ticket) = self.stage {
            self.line.quit_and_give(ticket);
        }
    }
}
