//! What equations have in common, as terms over the definitions of `specs/`.

use crate::operation::Outcome;
use crate::record::LentRecord;
use oracle::{Derivation, Description, Encoding, States};
use std::fmt::Display;

pub fn list<T: Display>(elements: &[T]) -> String {
    let mut out = String::from("(");
    for element in elements {
        out += &format!("{element} ∷ ");
    }
    out + "[])"
}

pub fn set(states: States) -> &'static str {
    match states {
        States::Two => "Two",
        States::Four => "Four",
        States::Nine => "Nine",
    }
}

pub fn description(description: Description) -> String {
    let encoding = match description.encoding {
        Encoding::Event => "Event".to_string(),
        Encoding::Real => "Real".to_string(),
        Encoding::BitVector { width, max_states } => {
            format!("BitVector {width} {}", set(max_states))
        }
    };
    format!(
        "(record {{ encoding = {encoding}; count = {} }})",
        description.count
    )
}

/// A description, its bytes and their start.
pub fn bytes_of(record: &LentRecord) -> String {
    let (bytes, start) = (list(&record.bytes), record.byte_start);
    format!("{} {bytes} {start}", description(record.description))
}

/// A description and what is lent with it.
pub fn lent(record: &LentRecord) -> String {
    format!(
        "{} (record {{ bytes = {}; byte_start = {}; indices = {}; index_start = {} }})",
        description(record.description),
        list(&record.bytes),
        record.byte_start,
        list(&record.indices),
        record.index_start
    )
}

pub fn derivation(derivation: &Derivation) -> String {
    format!(
        "(record {{ width = {}; input_count = {}; inputs = {}; piece_count = {}; bits = {} }})",
        derivation.width,
        derivation.input_count,
        list(&derivation.inputs),
        derivation.piece_count,
        list(&derivation.pieces)
    )
}

/// A reply by number or value.
pub fn reply<A>(outcome: &Outcome<A>, value: impl Fn(&A) -> String) -> String {
    match &outcome.answer {
        Err(refusal) => format!("refused {}", refusal.0),
        Ok(answer) => format!("given {}", value(answer)),
    }
}

/// The reply of a description.
pub fn made(outcome: &Outcome<Description>) -> String {
    reply(outcome, |next| description(*next))
}

/// An equation of a call that leaves something of a type with the number.
pub fn leaves<A>(of: &str, call: &str, outcome: &Outcome<A>, left: &str) -> String {
    let number = outcome.number();
    format!("◌≡◌ {{A = Outcome {of}}} ({call}) (record {{ refused = {number}; left = {left} }})")
}
