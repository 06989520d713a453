//! Who waits in line, by the number of the wait, and how each is woken.
//!
//! ```text
//!  a waiter:  its call answers Later(k) -> it registers under k
//!  a server:  its call answers Sent(k)  -> it takes what is registered under k, and wakes it
//! ```
//!
//! The server's call has served the cell of k before it comes here. Where it finds nobody, it leaves
//! the number, and the waiter, which registers later, is told to look at its wait: it was served.

use std::collections::VecDeque;
use std::sync::atomic::AtomicU32;
use std::sync::{Mutex, MutexGuard, PoisonError};
use std::task::Waker;

/// So many numbers are remembered in each part under which a server has found nobody.
const REMEMBERED: usize = 8;

/// Numbers that follow one another stand in different parts, so callers seldom meet there.
const PARTS: usize = 32;

/// The table.
#[derive(Debug)]
pub(crate) struct Wakers {
    parts: Box<[Mutex<Part>]>,
    /// How often something was left to a waiter who was just leaving, or may have been.
    pub(crate) lefts: AtomicU32,
    /// So many elements may lie free in a pool's library, at most. It says when to try there.
    pub(crate) inside: AtomicU32,
}

/// One part of the table.
#[derive(Debug, Default)]
pub(crate) struct Part {
    /// The waiters, in the order of their numbers.
    entries: VecDeque<Entry>,
    /// The last numbers under which a server has found nobody: the waiter is still to register, or
    /// is leaving.
    missed: VecDeque<u64>,
    /// Numbers below this one may have been such, and aren't remembered any more.
    forgotten: u64,
}

#[derive(Debug)]
struct Entry {
    number: u64,
    pass: u32,
    note: Note,
}

/// How a waiter stands.
#[derive(Debug)]
enum Note {
    /// It waits, and is woken by this.
    Waits(Waker),
    /// Somebody looked for it, and what it waited for has come: this element, or a permit.
    Has(u32),
}

/// What a waiter finds here.
#[derive(Debug, PartialEq, Eq)]
pub(crate) enum Found {
    /// It still waits.
    Waits,
    /// It has this, and isn't in the table any more.
    Has(u32),
    /// It isn't in the table any more, since it was served.
    Served,
}

impl Wakers {
    pub(crate) fn new(inside: u32) -> Wakers {
        let parts = (0..PARTS).map(|_| Mutex::default()).collect();
        Wakers { parts, lefts: AtomicU32::new(0), inside: AtomicU32::new(inside) }
    }

    #[inline]
    fn part(&self, number: u64) -> MutexGuard<'_, Part> {
        lock(&self.parts[number as usize % PARTS])
    }

    /// All parts, one after the other.
    pub(crate) fn parts(&self) -> impl Iterator<Item = &Mutex<Part>> {
        self.parts.iter()
    }

    /// A waiter comes. Says whether it may have been served before.
    pub(crate) fn register(&self, number: u64, pass: u32, waker: Waker) -> bool {
        let entry = Entry { number, pass, note: Note::Waits(waker) };
        let mut part = self.part(number);
        match part.entries.back() {
            Some(last) if last.number > number => {
                let at = part.place(number).unwrap_or_else(|at| at);
                part.entries.insert(at, entry);
            }
            _ => part.entries.push_back(entry),
        }
        number < part.forgotten || part.missed.contains(&number)
    }

    /// A waiter is polled again, by this waker.
    pub(crate) fn check(&self, number: u64, waker: &Waker) -> Found {
        match self.exchange(number, |old| old.will_wake(waker), None) {
            // What a waker does when it is cloned is its executor's affair: not under the lock.
            None => self.exchange(number, |_| false, Some(waker.clone())).unwrap_or(Found::Waits),
            Some(found) => found,
        }
    }

    /// What a waiter finds; none where it still waits and its waker isn't kept. The old one is
    /// dropped after the lock.
    fn exchange(
        &self,
        number: u64,
        is_kept: impl Fn(&Waker) -> bool,
        waker: Option<Waker>,
    ) -> Option<Found> {
        let mut part = self.part(number);
        let Ok(at) = part.place(number) else { return Some(Found::Served) };
        let old = match &mut part.entries[at].note {
            Note::Waits(old) if is_kept(old) => return Some(Found::Waits),
            Note::Waits(old) => waker.map(|waker| std::mem::replace(old, waker)),
            &mut Note::Has(element) => {
                part.entries.remove(at);
                return Some(Found::Has(element));
            }
        };
        drop(part);
        drop(old);
        None
    }

    /// A waiter goes, since it has looked, or since it is going to leave the line.
    pub(crate) fn remove(&self, number: u64) -> Found {
        let mut part = self.part(number);
        let entry = part.place(number).ok().and_then(|at| part.entries.remove(at));
        drop(part);
        match entry {
            Some(Entry { note: Note::Waits(_), .. }) => Found::Waits,
            Some(Entry { note: Note::Has(element), .. }) => Found::Has(element),
            None => Found::Served,
        }
    }

    /// The waiter of this number was served: it is woken, if it is there.
    #[inline]
    pub(crate) fn wake(&self, number: u64) {
        let mut part = self.part(number);
        let Ok(at) = part.place(number) else { return part.miss(number) };
        if let Note::Has(_) = part.entries[at].note {
            return;
        }
        let entry = part.entries.remove(at);
        drop(part);
        if let Some(Entry { note: Note::Waits(waker), .. }) = entry {
            waker.wake();
        }
    }
}

impl Part {
    /// Where the entry of this number stands, or would stand.
    #[inline]
    fn place(&self, number: u64) -> Result<usize, usize> {
        // The first in line is the next to be served.
        match self.entries.front() {
            Some(first) if first.number == number => Ok(0),
            None => Err(0),
            _ => self.entries.binary_search_by_key(&number, |entry| entry.number),
        }
    }

    /// A server has found nobody under this number.
    fn miss(&mut self, number: u64) {
        if self.missed.len() == REMEMBERED {
            let first = self.missed.pop_front().unwrap_or(0);
            self.forgotten = self.forgotten.max(first + 1);
        }
        self.missed.push_back(number);
    }

    /// Looks for each who waits, by its pass and its number, and gathers the wakers of those for
    /// whom something has come. Where a look can't be made just now, it says of which pass.
    pub(crate) fn look_for_all(
        &mut self,
        mut look: impl FnMut(u32, u64) -> Look,
        woken: &mut Vec<Waker>,
    ) -> Option<u32> {
        for entry in &mut self.entries {
            if let Note::Has(_) = entry.note {
                continue;
            }
            match look(entry.pass, entry.number) {
                Look::Pending => {}
                Look::Came(element) => {
                    let old = std::mem::replace(&mut entry.note, Note::Has(element));
                    if let Note::Waits(waker) = old {
                        woken.push(waker);
                    }
                }
                Look::Later => return Some(entry.pass),
            }
        }
        None
    }
}

/// What a look for somebody else has found.
#[derive(Debug)]
pub(crate) enum Look {
    /// Nothing has come yet, or the waiter has looked itself.
    Pending,
    /// This element, or a permit.
    Came(u32),
    /// The pass can't be used just now.
    Later,
}

/// Nobody's code runs under these locks but our own, which doesn't panic.
pub(crate) fn lock<T>(mutex: &Mutex<T>) -> MutexGuard<'_, T> {
    mutex.lock().unwrap_or_else(PoisonError::into_inner)
}
