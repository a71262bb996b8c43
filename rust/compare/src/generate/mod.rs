//! Generated calls. A receiver is shown them one by one.

mod changes;
mod records;
mod runs;

pub(crate) use records::added;

use crate::operation::{Asked, Case, Operation};
use crate::operations::OPERATIONS;
use crate::random::Random;
use oracle::Fed;
use reference::Used;

/// Is shown the calls.
pub trait Receiver {
    fn take(&mut self, case: &dyn Case);

    /// A run of bit-vector changes has ended: its width, what it was fed, and the record that it left.
    fn run(&mut self, _width: u32, _fed: &[Fed], _left: &Used) {}
}

impl dyn Receiver + '_ {
    /// Makes a call by the oracle and shows it. The outcome decides how a run goes on.
    pub fn call<O: Operation>(&mut self, call: O) -> Asked<O> {
        let asked = Asked::new(call);
        self.take(&asked);
        asked
    }
}

/// How large the calls grow.
#[derive(Clone, Copy, PartialEq, Eq, Debug)]
pub enum Size {
    /// For stored answers: widths mostly below 10, lists mostly below 10.
    Small,
    /// All widths up to 4,096, and lists of up to 131,072 equal indices.
    Full,
}

/// A long list comes once in this many scenarios.
const LONG_LIST_EVERY: usize = 4_000;

pub struct Generator {
    pub(crate) random: Random,
    pub(crate) size: Size,
}

impl Generator {
    pub fn new(seed: u64, size: Size) -> Self {
        Self {
            random: Random::new(seed),
            size,
        }
    }

    /// A generator that draws on from here without moving this one on.
    pub fn aside(&self) -> Self {
        Self {
            random: self.random.clone(),
            size: self.size,
        }
    }

    /// A handful of calls that belong together, and beside them what each operation has apart.
    pub fn scenario(&mut self, to: &mut dyn Receiver) {
        for operation in OPERATIONS {
            (operation.ask_aside)(&mut self.aside(), to);
        }
        if self.size == Size::Full && self.random.once_in(LONG_LIST_EVERY) {
            return self.long_list(to);
        }
        match self.random.below(10) {
            0..=3 => self.run_and_look(to),
            4 | 5 => self.unwritten(to),
            6 => self.likenesses(to),
            7 => self.list(to),
            _ => self.derivation(to),
        }
    }

    /// Widths of every class that document 01's layout knows, small ones most often.
    pub(crate) fn width(&mut self) -> u32 {
        let width = match (self.random.below(200), self.size) {
            (0, _) => self.random.pick(&[4_095, 4_096]),
            (1..=4, _) | (5..=24, Size::Full) => {
                self.random.pick(&[63, 64, 65, 127, 128, 255, 256])
            }
            (25..=30, _) | (31..=90, Size::Full) => self.random.from_to(10, 40),
            _ => self.random.from_to(1, 9),
        };
        width as u32
    }
}
