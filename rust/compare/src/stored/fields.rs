//! What calls and outcomes have in common, as fields.

use crate::record::LentRecord;
use oracle::{Derivation, Description, Encoding};
use std::fmt::Write;

/// Fields with one space between them.
#[derive(Default)]
pub struct Fields(pub String);

impl Fields {
    pub fn push(&mut self, field: impl std::fmt::Display) {
        if !self.0.is_empty() {
            self.0.push(' ');
        }
        write!(self.0, "{field}").expect("a String takes everything");
    }

    /// Numbers in hexadecimal with as many digits as their type has.
    pub fn hexadecimal<T: std::fmt::LowerHex>(&mut self, numbers: &[T]) {
        let digits = 2 * size_of::<T>();
        let mut field = String::with_capacity(digits * numbers.len());
        for number in numbers {
            write!(field, "{number:0digits$x}").expect("a String takes everything");
        }
        self.push(if field.is_empty() { "." } else { &field });
    }

    pub fn description(&mut self, description: Description) {
        let (kind, width, set) = match description.encoding {
            Encoding::Event => ('e', 0, 0),
            Encoding::Real => ('r', 0, 0),
            Encoding::BitVector { width, max_states } => ('b', width, max_states.mark()),
        };
        self.push(format_args!("{kind} {width} {set} {}", description.count));
    }

    /// The description of a new record; an empty event stands where a refusal gives none.
    pub fn made<Refusal>(&mut self, answer: &Result<Description, Refusal>) {
        let nothing = Description::empty(Encoding::Event);
        self.description(*answer.as_ref().unwrap_or(&nothing));
    }

    /// A record without its indices.
    pub fn bytes_of(&mut self, record: &LentRecord) {
        self.description(record.description);
        self.hexadecimal(&record.bytes);
        self.push(record.byte_start);
    }

    pub fn record(&mut self, record: &LentRecord) {
        self.bytes_of(record);
        self.hexadecimal(&record.indices);
        self.push(record.index_start);
    }

    pub fn derivation(&mut self, derivation: &Derivation) {
        self.push(derivation.width);
        self.push(derivation.input_count);
        self.hexadecimal(&derivation.inputs);
        self.push(derivation.piece_count);
        self.hexadecimal(&derivation.pieces);
    }
}
