//! A few passes that serve any number of callers.
//!
//! A pass may have several waits at once, and is in use only while a call runs. So a caller takes
//! one that nobody is using, starting at its thread's own; and goes on with the pass that its wait,
//! its permit or its element has.
//!
//! **What the library has no slot for is kept.** A pass that gives something back may be refused,
//! since each slot is taken by those who wait, or is spare with another pass. What it was to give is
//! then kept here with its pass, and given by whoever makes the next call. None is forgotten: who
//! keeps something counts it first, tries once more, and looks then whether a call has ended
//! meanwhile; and whose call has ended counts that, and looks then whether something is kept. Of the
//! two the later one tries again.

use crate::ffi::{self, Answer};
use crate::primitive::{MOST_PASSES, Primitive};
use crate::wakers::lock;
use std::cell::Cell;
use std::hint;
use std::sync::atomic::{AtomicU32, AtomicUsize, Ordering};
use std::sync::{Mutex, OnceLock};
use std::thread;

/// Who waits at a primitive, and hears what its calls have answered.
pub(crate) trait Waiters: Sized {
    /// A call has answered so, and what its pass owed is done.
    fn hear(passes: &Passes<Self>, answer: Answer);
}

/// A primitive with its passes, and those who wait at it.
#[derive(Debug)]
pub(crate) struct Passes<W> {
    primitive: Primitive,
    /// So many passes are there; their numbers are those below.
    made: AtomicU32,
    home_mask: u32,
    kept: Kept,
    pub(crate) waiters: W,
}

/// What the library had no slot for when it was given back.
#[derive(Debug, Default)]
struct Kept {
    /// So much is kept, or is about to be.
    count: AtomicUsize,
    /// How many calls ended while something was.
    ends: AtomicUsize,
    /// The passes, and the element that each has.
    given: Mutex<Vec<(u32, u64)>>,
}

impl<W: Waiters> Passes<W> {
    pub(crate) fn new(primitive: Primitive, waiters: W) -> Passes<W> {
        let (made, home_mask) = (AtomicU32::new(1), home_mask());
        Passes { primitive, made, home_mask, kept: Kept::default(), waiters }
    }

    /// How many passes there are.
    pub(crate) fn count(&self) -> u32 {
        self.made.load(Ordering::Acquire)
    }

    /// The pass of this thread, which may not be there yet. There are as many as processors; threads
    /// beyond share them.
    #[inline]
    pub(crate) fn place(&self) -> u32 {
        thread_number() & self.home_mask
    }

    /// The pass of this thread, or what stands for it.
    pub(crate) fn home(&self) -> u32 {
        let home = self.place();
        if home < self.count() { home } else { self.make_up_to(home) }
    }

    /// One pass of all that there may be, each time another: for a long line, since what a call
    /// costs goes by how many waits its pass has.
    pub(crate) fn next(&self) -> u32 {
        self.make_up_to(next_turn() % MOST_PASSES)
    }

    /// Makes passes up to this one, where that can be done, and says which stands for it.
    #[cold]
    fn make_up_to(&self, wanted: u32) -> u32 {
        loop {
            let count = self.count();
            if wanted < count {
                return wanted;
            }
            if self.make_one().is_err() {
                return wanted % count;
            }
        }
    }

    /// Makes one pass more, or says why it didn't. Pass 0 makes the others, so they come in order.
    fn make_one(&self) -> Result<(), u32> {
        let made = self.primitive.call(ffi::DO_SPLIT, 0, 0);
        if made.answer != ffi::MADE {
            return Err(made.answer);
        }
        self.made.fetch_max(made.number as u32 + 1, Ordering::AcqRel);
        Ok(())
    }

    /// One call with this pass, as soon as nobody else is using it. What the call leaves owing is
    /// done, and who waits hears of it.
    #[inline]
    pub(crate) fn call(&self, what: u32, pass: u32, number: u64) -> Answer {
        let answer = self.call_once(what, pass, number);
        self.give_kept();
        answer
    }

    #[inline]
    fn call_once(&self, what: u32, pass: u32, number: u64) -> Answer {
        let mut turns = Turns::new();
        loop {
            let answer = self.primitive.call(what, pass, number);
            match answer.answer {
                ffi::IN_USE => turns.wait(),
                ffi::OWES => self.finish(pass),
                ffi::UNDER | ffi::CANCELLED_OWING | ffi::LAST_OWING => {
                    self.finish(pass);
                    return answer;
                }
                _ => {
                    W::hear(self, answer);
                    return answer;
                }
            }
        }
    }

    /// Gives back what this pass has. Where there is no slot for it, it is given as soon as there is
    /// one.
    pub(crate) fn leave(&self, pass: u32, element: u32) {
        let given = (pass, element.into());
        if self.call(ffi::DO_LEAVE, given.0, given.1).answer == ffi::CROWDED {
            self.kept.count.fetch_add(1, Ordering::SeqCst);
            self.give_again(given);
        }
    }

    /// Something that counts as kept is given, or stays so.
    #[cold]
    fn give_again(&self, mut given: (u32, u64)) {
        loop {
            let ends = self.kept.ends.load(Ordering::SeqCst);
            if self.call_once(ffi::DO_LEAVE, given.0, given.1).answer != ffi::CROWDED {
                self.kept.count.fetch_sub(1, Ordering::SeqCst);
                return;
            }
            let mut kept = lock(&self.kept.given);
            kept.push(given);
            if self.kept.ends.load(Ordering::SeqCst) == ends {
                return;
            }
            given = kept.swap_remove(0);
        }
    }

    /// A call has ended, so there may be a slot for what is kept.
    #[inline]
    fn give_kept(&self) {
        if self.kept.count.load(Ordering::SeqCst) > 0 {
            self.give_all_again();
        }
    }

    #[cold]
    fn give_all_again(&self) {
        self.kept.ends.fetch_add(1, Ordering::SeqCst);
        let kept = std::mem::take(&mut *lock(&self.kept.given));
        for given in kept {
            self.give_again(given);
        }
    }

    /// The same as a call, with whatever pass nobody is using, from this one on. It is answered as
    /// crowded where each pass was seen to have no room for one more wait, or no slot.
    #[inline]
    pub(crate) fn call_any(&self, what: u32, first: u32) -> (u32, Answer) {
        let answer = self.primitive.call(what, first, 0);
        let answered = match answer.answer {
            ffi::IN_USE | ffi::OWES | ffi::FULL | ffi::CROWDED => self.call_another(what, first),
            _ => self.heard(first, answer),
        };
        self.give_kept();
        answered
    }

    /// A call with this pass has answered so.
    #[inline]
    fn heard(&self, pass: u32, answer: Answer) -> (u32, Answer) {
        W::hear(self, answer);
        if let ffi::LAST_OWING = answer.answer {
            self.finish(pass);
        }
        (pass, answer)
    }

    #[cold]
    fn call_another(&self, what: u32, first: u32) -> (u32, Answer) {
        let mut turns = Turns::new();
        let mut pass = first;
        // The passes that were seen to have no room or no slot.
        let (mut full, mut crowded) = (0_u32, 0_u32);
        loop {
            let answer = self.primitive.call(what, pass, 0);
            match answer.answer {
                ffi::OWES => {
                    self.finish(pass);
                    continue;
                }
                ffi::IN_USE => {}
                ffi::FULL => full |= 1 << pass,
                ffi::CROWDED => crowded |= 1 << pass,
                _ => return self.heard(pass, answer),
            }
            pass += 1;
            let count = self.count();
            if pass < count {
                continue;
            }
            pass = 0;
            if (full | crowded).count_ones() == count {
                // There may be room for as many waits as all passes have, once all are there.
                let more = if full > 0 { self.make_one() } else { Err(ffi::CROWD) };
                match more {
                    Ok(()) => pass = count,
                    Err(ffi::CROWD | ffi::MEMORY) => {
                        return (first, Answer { answer: ffi::CROWDED, number: -1 });
                    }
                    Err(_) => (full, crowded) = (0, 0),
                }
            }
            turns.wait();
        }
    }

    /// A look at a wait, which changes nothing else: without waiting where the pass is in use.
    pub(crate) fn glance(&self, pass: u32, number: u64) -> Answer {
        self.primitive.call(ffi::DO_POLL, pass, number)
    }

    /// Goes on with what the pass owes, if it owes something.
    pub(crate) fn settle(&self, pass: u32) {
        self.finish(pass);
    }

    /// Goes on with what the pass owes, to the end. Whoever finds that it owes does so.
    #[cold]
    pub(crate) fn finish(&self, pass: u32) {
        let mut turns = Turns::new();
        loop {
            let answer = self.primitive.call(ffi::DO_FINISH, pass, 0);
            match answer.answer {
                // A resumption may want the slot that another call is just about to give up.
                ffi::IN_USE | ffi::UNDER => turns.wait(),
                _ => {
                    W::hear(self, answer);
                    return;
                }
            }
        }
    }
}

/// Turns in which a pass is in use: a call takes some fifty nanoseconds, so a few are spent on the
/// processor, and then other threads may run.
pub(crate) struct Turns(u32);

impl Turns {
    pub(crate) fn new() -> Turns {
        Turns(0)
    }

    pub(crate) fn wait(&mut self) {
        self.0 += 1;
        if self.0 <= 16 {
            hint::spin_loop();
        } else {
            thread::yield_now();
        }
    }
}

/// As many processors as there are, rounded up to a power of two, less 1: at most 31.
fn home_mask() -> u32 {
    static MASK: OnceLock<u32> = OnceLock::new();
    *MASK.get_or_init(|| {
        let count = thread::available_parallelism().map_or(1, |count| count.get() as u32);
        count.min(MOST_PASSES).next_power_of_two() - 1
    })
}

/// Threads have numbers, in the order in which they come here first.
#[inline]
fn thread_number() -> u32 {
    const NONE: u32 = u32::MAX;
    thread_local! { static NUMBER: Cell<u32> = const { Cell::new(NONE) } }
    NUMBER.with(|number| {
        if number.get() == NONE {
            number.set(next_thread());
        }
        number.get()
    })
}

#[cold]
fn next_thread() -> u32 {
    static NEXT: AtomicU32 = AtomicU32::new(0);
    NEXT.fetch_add(1, Ordering::Relaxed) & (u32::MAX >> 1)
}

/// Counts up, in each thread from its own number on.
fn next_turn() -> u32 {
    thread_local! { static TURN: Cell<u32> = const { Cell::new(0) } }
    TURN.with(|turn| {
        turn.set(turn.get().wrapping_add(1));
        turn.get().wrapping_add(thread_number())
    })
}

#[cfg(test)]
mod tests {
    use super::*;

    /// Counts the permits that were sent to waiters.
    #[derive(Default)]
    struct Sent(AtomicUsize);

    impl Waiters for Sent {
        fn hear(passes: &Passes<Sent>, answer: Answer) {
            if answer.answer == ffi::SENT {
                passes.waiters.0.fetch_add(1, Ordering::SeqCst);
            }
        }
    }

    /// A semaphore whose permit pass 1 has, and the waits of pass 0, which take all slots.
    fn crowded() -> (Passes<Sent>, Vec<u64>) {
        let primitive = Primitive::new(ffi::KIND_SEMAPHORE, 1, 2, 100_000, 64).unwrap();
        let passes = Passes::new(primitive, Sent::default());
        passes.make_one().unwrap();
        // This pass has no slot to spare, since it never came to wait.
        assert_eq!(passes.call(ffi::DO_TRY, 1, 0).answer, ffi::GOT);
        let mut waits = Vec::new();
        for came in 0.. {
            let answer = passes.call(ffi::DO_ENTER, 0, 0);
            match answer.answer {
                ffi::LATER if came % 32 == 0 => waits.push(answer.number as u64),
                ffi::LATER => {
                    passes.call(ffi::DO_CANCEL, 0, answer.number as u64);
                }
                other => {
                    assert_eq!(other, ffi::CROWDED);
                    break;
                }
            }
        }
        (passes, waits)
    }

    /// How much is kept, and how many permits were sent.
    fn counts(passes: &Passes<Sent>) -> (usize, usize) {
        let kept = lock(&passes.kept.given).len();
        assert_eq!(passes.kept.count.load(Ordering::SeqCst), kept);
        (kept, passes.waiters.0.load(Ordering::SeqCst))
    }

    #[test]
    fn what_finds_no_slot_is_given_by_a_later_call() {
        let (passes, waits) = crowded();
        passes.leave(1, 0);
        assert_eq!(counts(&passes), (1, 0));
        assert_eq!(passes.call(ffi::DO_POLL, 0, waits[0]).answer, ffi::PENDING);
        assert_eq!(counts(&passes), (1, 0));
        let one = waits[waits.len() / 2];
        assert_eq!(passes.call(ffi::DO_CANCEL, 0, one).answer, ffi::CANCELLED);
        assert_eq!(counts(&passes), (0, 1));
        assert_eq!(passes.call(ffi::DO_POLL, 0, waits[0]).answer, ffi::GRANTED);
    }

    #[test]
    fn nothing_stays_kept_where_a_slot_comes_free_just_then() {
        for _ in 0..1000 {
            let (passes, waits) = crowded();
            thread::scope(|scope| {
                scope.spawn(|| passes.leave(1, 0));
                let one = waits[waits.len() / 2];
                assert_eq!(passes.call(ffi::DO_CANCEL, 0, one).answer, ffi::CANCELLED);
            });
            assert_eq!(counts(&passes), (0, 1));
        }
    }
}
