//! The oracle's types as the archive's numbers, and back.

use oracle::{Derivation, Description, Encoding, Kind, Refusal, States};
use yoksimert::raw::{FlatDerivation, FlatDescription};

pub fn encode(description: Description) -> FlatDescription {
    let (kind, width, set) = match description.encoding {
        Encoding::Event => (0, 0, 0),
        Encoding::Real => (1, 0, 0),
        Encoding::BitVector { width, max_states } => (2, width, u32::from(max_states.mark())),
    };
    FlatDescription::new(kind, width, set, description.count)
}

/// # Panics
/// If the numbers are no description: the archive gives none such with an accepted call.
pub fn decode(flat: FlatDescription) -> Description {
    let encoding = match (kind(flat.kind), flat.width, flat.set) {
        (Kind::Event, 0, 0) => Encoding::Event,
        (Kind::Real, 0, 0) => Encoding::Real,
        (Kind::BitVector, width, set) => Encoding::BitVector {
            width,
            max_states: states(set),
        },
        _ => panic!("{flat:?} is no description"),
    };
    Description::counting(encoding, flat.count)
}

pub fn kind(number: u32) -> Kind {
    match number {
        0 => Kind::Event,
        1 => Kind::Real,
        2 => Kind::BitVector,
        _ => panic!("{number} is no kind"),
    }
}

pub fn states(number: u32) -> States {
    match number {
        0 => States::Two,
        1 => States::Four,
        2 => States::Nine,
        _ => panic!("{number} is no set"),
    }
}

/// 0 is no refusal.
pub fn accepted(number: u32) -> Result<(), Refusal> {
    if number == 0 {
        return Ok(());
    }
    match yoksimert::Refusal::from_number(number) {
        Some(refusal) => Err(Refusal(refusal.number())),
        None => panic!("{number} is no number of documents 01 and 02"),
    }
}

/// The description that an accepted call left in a lent one.
pub fn next_of(
    number: u32,
    given: FlatDescription,
    next: FlatDescription,
) -> Result<Description, Refusal> {
    if number != 0 {
        assert_eq!(next, given, "refused, and another description");
    }
    accepted(number)?;
    Ok(decode(next))
}

pub fn flat_derivation(d: &Derivation) -> FlatDerivation {
    FlatDerivation {
        width: d.width,
        input_count: d.input_count,
        piece_count: d.piece_count,
    }
}
