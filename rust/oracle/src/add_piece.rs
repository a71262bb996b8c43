//! Add a piece (document 01, A derivation).

use crate::derivation::{Derivation, MAX_INPUTS, MAX_PIECES, Piece};
use crate::{MAX_WIDTH, Refusal, refuse_if};

/// The end at which a piece is added.
#[derive(Clone, Copy, PartialEq, Eq, Debug)]
pub enum Side {
    /// Above the first piece.
    Left,
    /// Below the last piece.
    Right,
}

/// Adds bits `msb` down to `lsb` of the input of that name at one end.
///
/// # Errors
/// 14, 12, 13.
pub fn add_piece(
    d: &Derivation,
    side: Side,
    name: u32,
    msb: u32,
    lsb: u32,
) -> Result<Derivation, Refusal> {
    refuse_if(!d.stands(), 14)?;
    refuse_if(msb < lsb || msb >= MAX_WIDTH, 12)?;
    let mut names = d.inputs[..d.input_count as usize].to_vec();
    if !names.contains(&name) {
        names.push(name);
    }
    let input = names.iter().take_while(|&&other| other != name).count();
    let piece = Piece {
        input: input as u64,
        width: u64::from(msb - lsb + 1),
        lsb: u64::from(lsb),
    };
    let pieces = joined(d.used_pieces(), side, piece);
    let width = d.width + (msb - lsb + 1);
    let too_many = names.len() > MAX_INPUTS || pieces.len() > MAX_PIECES;
    refuse_if(too_many || width > MAX_WIDTH, 13)?;

    let mut next = *d;
    next.width = width;
    next.input_count = names.len() as u32;
    next.inputs[..names.len()].copy_from_slice(&names);
    next.piece_count = pieces.len() as u32;
    for (packed, piece) in next.pieces.iter_mut().zip(pieces) {
        *packed = piece.packed();
    }
    Ok(next)
}

/// The pieces with a new one, merged with its neighbour when the input is the same and the
/// bits adjoin.
fn joined(mut pieces: Vec<Piece>, side: Side, new: Piece) -> Vec<Piece> {
    let neighbour = match side {
        Side::Left => pieces.first_mut(),
        Side::Right => pieces.last_mut(),
    };
    if let Some(old) = neighbour {
        let (upper, lower) = match side {
            Side::Left => (new, *old),
            Side::Right => (*old, new),
        };
        if upper.input == lower.input && upper.lsb == lower.end() {
            *old = Piece {
                width: upper.width + lower.width,
                ..lower
            };
            return pieces;
        }
    }
    match side {
        Side::Left => pieces.insert(0, new),
        Side::Right => pieces.push(new),
    }
    pieces
}
