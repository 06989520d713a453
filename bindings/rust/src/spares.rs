//! What was given back while nobody waited: it stays at hand, with the pass that has it, for the
//! next who comes.

use std::fmt::Debug;
use std::sync::atomic::{AtomicU32, AtomicU64, Ordering};

use crate::primitive::MOST_PASSES;

/// Permits or elements at hand, by their passes.
pub(crate) trait Spares: Debug {
    /// One more is at hand.
    fn put(&self, pass: u32, element: u32);

    /// Takes one, where one is at hand.
    fn take(&self, pass: u32) -> Option<u32>;

    /// How many are at hand.
    fn count(&self, pass: u32) -> u32;
}

/// Something that has its cache lines for itself.
#[derive(Debug, Default)]
#[repr(align(128))]
pub(crate) struct Apart<T>(pub(crate) T);

/// One for each pass.
type ForEachPass<T> = [Apart<T>; MOST_PASSES as usize];

/// Permits, which are all alike: how many each pass has at hand.
#[derive(Debug, Default)]
pub(crate) struct Permits(ForEachPass<AtomicU32>);

impl Spares for Permits {
    #[inline]
    fn put(&self, pass: u32, _element: u32) {
        self.0[pass as usize].0.fetch_add(1, Ordering::SeqCst);
    }

    #[inline]
    fn take(&self, pass: u32) -> Option<u32> {
        let count = &self.0[pass as usize].0;
        let mut now = count.load(Ordering::SeqCst);
        while now > 0 {
            match count.compare_exchange_weak(now, now - 1, Ordering::SeqCst, Ordering::SeqCst) {
                Ok(_) => return Some(0),
                Err(found) => now = found,
            }
        }
        None
    }

    fn count(&self, pass: u32) -> u32 {
        self.0[pass as usize].0.load(Ordering::SeqCst)
    }
}

/// Elements of a pool: for each pass a stack of those that it has at hand.
#[derive(Debug)]
pub(crate) struct Elements {
    /// How often the stack was changed (32 bits), how many it has (16), and its top and 1, or 0.
    tops: ForEachPass<AtomicU64>,
    /// Below each element lies this one, and 1, or 0.
    below: Box<[AtomicU32]>,
}

impl Elements {
    pub(crate) fn new(size: usize) -> Elements {
        let below = (0..size).map(|_| AtomicU32::new(0)).collect();
        Elements { tops: Default::default(), below }
    }
}

const ONE_CHANGE: u64 = 1 << 32;
const COUNT: u64 = 0xffff << 16;
const TOP: u64 = 0xffff;

impl Spares for Elements {
    fn put(&self, pass: u32, element: u32) {
        let top = &self.tops[pass as usize].0;
        let mut now = top.load(Ordering::SeqCst);
        loop {
            self.below[element as usize].store((now & TOP) as u32, Ordering::Relaxed);
            let changes = (now & !(COUNT | TOP)).wrapping_add(ONE_CHANGE);
            let next = changes | ((now & COUNT) + (1 << 16)) | u64::from(element + 1);
            match top.compare_exchange_weak(now, next, Ordering::SeqCst, Ordering::SeqCst) {
                Ok(_) => return,
                Err(found) => now = found,
            }
        }
    }

    fn take(&self, pass: u32) -> Option<u32> {
        let top = &self.tops[pass as usize].0;
        let mut now = top.load(Ordering::SeqCst);
        loop {
            let element = ((now & TOP) as u32).checked_sub(1)?;
            let below = self.below[element as usize].load(Ordering::Relaxed);
            let changes = (now & !(COUNT | TOP)).wrapping_add(ONE_CHANGE);
            let next = changes | ((now & COUNT) - (1 << 16)) | u64::from(below);
            match top.compare_exchange_weak(now, next, Ordering::SeqCst, Ordering::SeqCst) {
                Ok(_) => return Some(element),
                Err(found) => now = found,
            }
        }
    }

    fn count(&self, pass: u32) -> u32 {
        ((self.tops[pass as usize].0.load(Ordering::SeqCst) & COUNT) >> 16) as u32
    }
}
