//! The domain in which wellen is a reference: the sentences of document 01 that bound it for more than one
//! operation, a predicate for each. Those of one operation alone are in its file. Outside the domain the oracle alone
//! answers.

use crate::record::{LentRecord, entry_size};
use oracle::{Derivation, Encoding, MAX_WIDTH, MAXIMUM, States};

/// "2: bit-vector width outside 1 to 4,096, count above the maximum, or a used part that, from its start,
/// reaches past a lent slice." wellen has no lent slices and no such limits.
pub fn is_record(record: &LentRecord) -> bool {
    bytes_lent(record)
        && fits(
            record.index_start,
            record.description.count,
            1,
            record.indices.len(),
        )
}

/// The same for Read and Text, which are lent the bytes alone.
pub fn bytes_lent(record: &LentRecord) -> bool {
    let description = record.description;
    let width_stands = match description.encoding {
        Encoding::BitVector { width, .. } => (1..=MAX_WIDTH).contains(&width),
        Encoding::Event | Encoding::Real => true,
    };
    width_stands
        && description.count <= MAXIMUM
        && fits(
            record.byte_start,
            description.count,
            entry_size(description.encoding),
            record.bytes.len(),
        )
}

fn fits(start: usize, count: u32, size: usize, len: usize) -> bool {
    start
        .checked_add(count as usize * size)
        .is_some_and(|end| end <= len)
}

/// "9: mark 3, or above the largest set (at widths 1 and 2 the Rust reads the latter)."
pub fn read_by_the_rust(record: &LentRecord, entry: u32) -> bool {
    let description = record.description;
    match description.encoding {
        Encoding::BitVector {
            width: 1 | 2,
            max_states: States::Four,
        } if entry < description.count => record.entry(entry)[0] >> 6 == States::Nine.mark(),
        _ => false,
    }
}

/// "14: a derivation with over 64 pieces or 8 inputs, a piece of width 0, naming a missing input or reaching
/// above bit 4,095, or a width that is not its pieces' sum or exceeds 4,096." wellen makes no such derivation.
pub fn is_derivation(derivation: &Derivation) -> bool {
    let Some(pieces) = derivation.pieces.get(..derivation.piece_count as usize) else {
        return false;
    };
    let stands = |piece: &u64| {
        let (input, width, lsb) = unpacked(*piece);
        width > 0
            && input < u64::from(derivation.input_count)
            && lsb + width <= u64::from(MAX_WIDTH)
    };
    let sum: u64 = pieces.iter().map(|piece| unpacked(*piece).1).sum();
    derivation.input_count as usize <= derivation.inputs.len()
        && pieces.iter().all(stands)
        && u64::from(derivation.width) == sum
        && derivation.width <= MAX_WIDTH
}

/// Input, width and lsb: "input × 2^48 + width × 2^32 + lsb".
pub fn unpacked(piece: u64) -> (u64, u64, u64) {
    (piece >> 48, piece >> 32 & 0xffff, piece & 0xffff_ffff)
}
