//! The crate's types as the oracle's.

use yoksimert::{DataOffset, FixedWidthEncoding, Refusal, Signal, States};

pub fn states(states: States) -> oracle::States {
    match states {
        States::Two => oracle::States::Two,
        States::Four => oracle::States::Four,
        States::Nine => oracle::States::Nine,
    }
}

pub fn description(signal: &Signal) -> oracle::Description {
    let encoding = match signal.encoding() {
        FixedWidthEncoding::Event => oracle::Encoding::Event,
        FixedWidthEncoding::Real => oracle::Encoding::Real,
        FixedWidthEncoding::BitVector { max_states, width } => oracle::Encoding::BitVector {
            width,
            max_states: states(max_states),
        },
    };
    oracle::Description::of(encoding, signal.time_indices())
}

pub fn record(signal: &Signal) -> oracle::Record<'_> {
    oracle::Record {
        description: description(signal),
        bytes: signal.bytes(),
        byte_start: 0,
        indices: signal.time_indices(),
        index_start: 0,
    }
}

pub fn offset(offset: DataOffset) -> oracle::Offset {
    oracle::Offset {
        start: offset.start,
        elements: offset.elements,
        time_match: offset.time_match,
        next_index: offset.next_index.map(u32::from),
    }
}

pub fn refusal(refusal: Refusal) -> oracle::Refusal {
    oracle::Refusal(refusal.number())
}
