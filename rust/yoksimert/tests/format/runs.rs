//! Calls one after another on one record: Fresh, Add a change, and what is lent to it.

use yoksimert::raw;

use crate::record::{Record, found, lent, record};
use crate::table::{NOTHING, bytes_shown, listed, number, quoted, set_named, span};
use crate::{Replay, Shown};

/// The record as the last call left it, and how many bytes and indices are lent from its starts on.
pub struct Run {
    record: Record,
    room: (usize, usize),
}

impl Run {
    pub fn new() -> Self {
        Self {
            record: record("event: empty"),
            room: (64, 16),
        }
    }

    /// One call by its text: the operation that it is, if any, and its number.
    fn call(&mut self, call: &str) -> (Option<&'static str>, u32) {
        let (verb, rest) = call.split_once(' ').expect("a verb and the rest");
        match verb {
            "fresh" => (Some("Fresh"), self.make(rest)),
            "take" => {
                (self.record, self.room) = (record(rest), (64, 16));
                (None, 0)
            }
            "lend" => {
                let (bytes, indices) = rest.split_once(", ").expect("two lengths");
                self.room = (number(bytes), number(indices));
                (None, 0)
            }
            "add" => (Some("Add a change"), self.add(rest)),
            _ => panic!("no call: {call}"),
        }
    }

    fn make(&mut self, what: &str) -> u32 {
        let mut recorder = self.record.description;
        let number = match what {
            "real" => raw::recorder_fresh_real(&mut recorder),
            width => raw::recorder_fresh(&mut recorder, number(width)),
        };
        if number == 0 {
            *self = Self::new();
        } else {
            assert_eq!(recorder, self.record.description);
        }
        self.record.description = recorder;
        number
    }

    /// `"x01" at 3` or `real 1.5 at 3`
    fn add(&mut self, change: &str) -> u32 {
        let (value, index) = change.rsplit_once(" at ").expect("a value and an index");
        let index = number(index);
        let mut recorder = self.record.description;
        let mut slices = lent(&self.record, self.room.0, self.room.1);
        let (bytes, indices, at) = (&mut slices.bytes, &mut slices.indices, slices.start);
        let answer = if let Some(real) = value.strip_prefix("real ") {
            let bits = number::<f64>(real).to_bits();
            raw::recorder_add_real(&mut recorder, bytes, at, indices, at, index, bits)
        } else {
            let string = value.trim_matches('"').as_bytes();
            raw::recorder_add_change(&mut recorder, bytes, at, indices, at, index, string)
        };
        let left = found(recorder, &slices);
        assert!(answer == 0 || left == self.record, "{left:?}");
        self.record = left;
        answer
    }

    fn largest_set(&self) -> String {
        match self.record.description.kind {
            2 => set_named(self.record.description.set),
            _ => NOTHING.to_string(),
        }
    }

    fn history(&self) -> String {
        let record = &self.record;
        let pairs = record.indices.iter().zip(0..);
        quoted(pairs.map(|(index, entry)| format!("{index} {}", record.string(entry))))
    }
}

fn shown(operation: Option<&'static str>, number: u32) -> Shown {
    operation.map(|name| (name, number)).into_iter().collect()
}

/// call, number, largest set, indices, bytes
impl Replay for Run {
    fn row(&mut self, cells: &[String]) -> (Vec<String>, Shown) {
        let (operation, number) = self.call(span(&cells[0]));
        let row = vec![
            cells[0].clone(),
            number.to_string(),
            self.largest_set(),
            listed(&self.record.indices),
            bytes_shown(&self.record.bytes),
        ];
        (row, shown(operation, number))
    }
}

/// call, number, history
pub struct Histories(pub Run);

impl Replay for Histories {
    fn row(&mut self, cells: &[String]) -> (Vec<String>, Shown) {
        let (operation, number) = self.0.call(span(&cells[0]));
        let row = vec![cells[0].clone(), number.to_string(), self.0.history()];
        (row, shown(operation, number))
    }
}

/// The record of some strings of one width, at the index 0.
pub fn written(width: u32, strings: &[&str]) -> Record {
    let mut run = Run::new();
    assert_eq!(run.make(&width.to_string()), 0);
    run.room = (8_192, 16);
    for string in strings {
        assert_eq!(run.add(&format!("\"{string}\" at 0")), 0, "{string}");
    }
    run.record
}
