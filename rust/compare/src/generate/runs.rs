//! Runs, and records that no writer made, and what is asked of them.

use super::{Generator, Receiver, Size};
use crate::operations::OPERATIONS;
use crate::operations::fresh::Fresh;
use reference::Used;

/// A run of hundreds of changes comes once in this many.
const LONG_RUN_EVERY: usize = 2_000;

impl Generator {
    /// What each operation has for a record.
    pub(crate) fn look_at(&mut self, used: &Used, to: &mut dyn Receiver) {
        for operation in OPERATIONS {
            (operation.ask_of_record)(self, used, to);
        }
    }

    /// A run, then its entries, its indices and its likes.
    pub(super) fn run_and_look(&mut self, to: &mut dyn Receiver) {
        let width = match self.random.below(12) {
            0 => 0,
            1 => return self.reals(to),
            2 if self.random.once_in(8) => return self.fresh_beyond(to),
            _ => self.width(),
        };
        let long = self.size == Size::Full && self.random.once_in(LONG_RUN_EVERY);
        let changes = if long { 400 } else { self.random.below(12) };
        let used = self.run(width, changes, to);
        self.look_at(&used, to);
    }

    fn reals(&mut self, to: &mut dyn Receiver) {
        let changes = self.random.below(12);
        let (used, _) = self.go_on(Used::empty(oracle::fresh_real()), changes, to);
        self.look_at(&used, to);
    }

    /// A run from Fresh.
    pub(crate) fn run(&mut self, width: u32, changes: usize, to: &mut dyn Receiver) -> Used {
        let outcome = to.call(Fresh { width }).outcome;
        let description = outcome.answer.expect("the generator's widths stand");
        let (used, fed) = self.go_on(Used::empty(description), changes, to);
        if width > 0 {
            to.run(width, &fed, &used);
        }
        used
    }

    /// Records that no writer made: written onto, and looked at.
    pub(super) fn unwritten(&mut self, to: &mut dyn Receiver) {
        let used = if self.random.once_in(2) {
            self.any_bytes()
        } else {
            let (width, changes) = (self.width(), self.random.from_to(1, 5));
            let written = self.run(width, changes, to);
            self.with_flipped_bits(&written)
        };
        self.look_at(&used, to);
        let (used, _) = self.go_on(used, 2, to);
        self.look_at(&used, to);
    }
}
