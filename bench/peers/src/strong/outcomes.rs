//! Outcomes that are set once, never move, and are read without a lock.

use crate::desk::LARGEST_LIMIT;
use crate::value::Outcome;
use std::cell::UnsafeCell;
use std::mem::MaybeUninit;
use std::sync::atomic::{AtomicU32, Ordering};
use std::sync::OnceLock;

/// An outcome, which is there once `ended` says so.
pub struct Slot {
    /// One more than the place of the event that gave the outcome, or one of the two numbers below.
    ended: AtomicU32,
    outcome: UnsafeCell<MaybeUninit<Outcome>>,
}

/// Nobody has set it, or somebody is about to.
const UNSET: u32 = 0;
const TAKEN: u32 = u32::MAX;

// Only who takes the slot writes the outcome, and others read it after `ended` is set.
unsafe impl Sync for Slot {}

impl Slot {
    fn new() -> Slot {
        Slot { ended: AtomicU32::new(UNSET), outcome: UnsafeCell::new(MaybeUninit::uninit()) }
    }

    /// The place of the event that gave the outcome, and the outcome, once there is one.
    #[inline(always)]
    pub fn look(&self) -> Option<(u32, &Outcome)> {
        match self.ended.load(Ordering::Acquire) {
            UNSET | TAKEN => None,
            ended => Some((ended - 1, unsafe { (*self.outcome.get()).assume_init_ref() })),
        }
    }

    /// Sets the outcome, unless there is one.
    #[inline(always)]
    pub fn set(&self, at: u32, outcome: Outcome) {
        if self.ended.compare_exchange(UNSET, TAKEN, Ordering::Relaxed, Ordering::Relaxed).is_ok() {
            unsafe { (*self.outcome.get()).write(outcome) };
            self.ended.store(at + 1, Ordering::Release);
        }
    }
}

impl Drop for Slot {
    fn drop(&mut self) {
        if !matches!(*self.ended.get_mut(), UNSET | TAKEN) {
            unsafe { self.outcome.get_mut().assume_init_drop() };
        }
    }
}

/// How many slots the first part has. Each further part has twice as many as the one before.
const FIRST: u32 = 64;
const PARTS: usize = (LARGEST_LIMIT / FIRST).ilog2() as usize + 1;

#[derive(Default)]
pub struct Outcomes {
    parts: [OnceLock<Box<[Slot]>>; PARTS],
}

impl Outcomes {
    /// The slot of a cell.
    #[inline(always)]
    pub fn slot(&self, cell: u32) -> &Slot {
        let part = (cell / FIRST + 1).ilog2();
        let size = FIRST << part;
        let slots = self.parts[part as usize].get_or_init(|| (0..size).map(|_| Slot::new()).collect());
        &slots[(cell + FIRST - size) as usize]
    }
}
