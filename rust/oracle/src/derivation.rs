//! Derivations (document 01, A derivation).

use crate::MAX_WIDTH;

/// The most inputs of a derivation.
pub const MAX_INPUTS: usize = 8;
/// The most pieces of a derivation.
pub(crate) const MAX_PIECES: usize = 64;

/// The inputs and pieces of a derived bit vector.
#[derive(Clone, Copy, PartialEq, Eq, Debug)]
pub struct Derivation {
    /// The sum of the pieces' widths.
    pub width: u32,
    /// The number of inputs.
    pub input_count: u32,
    /// The inputs' names.
    pub inputs: [u32; MAX_INPUTS],
    /// The number of pieces.
    pub piece_count: u32,
    /// The packed pieces, the highest first.
    pub pieces: [u64; MAX_PIECES],
}

/// The derivation with no piece and no input.
pub fn empty_derivation() -> Derivation {
    Derivation {
        width: 0,
        input_count: 0,
        inputs: [0; MAX_INPUTS],
        piece_count: 0,
        pieces: [0; MAX_PIECES],
    }
}

/// Bits of an input, from `lsb` up. The fields are wide enough that no sum wraps.
#[derive(Clone, Copy)]
pub(crate) struct Piece {
    pub(crate) input: u64,
    pub(crate) width: u64,
    pub(crate) lsb: u64,
}

impl Piece {
    fn from_packed(packed: u64) -> Piece {
        Piece {
            input: packed / 2u64.pow(48),
            width: packed / 2u64.pow(32) % 2u64.pow(16),
            lsb: packed % 2u64.pow(32),
        }
    }

    pub(crate) fn packed(self) -> u64 {
        self.input * 2u64.pow(48) + self.width * 2u64.pow(32) + self.lsb
    }

    /// The bit above the highest one: msb + 1.
    pub(crate) fn end(self) -> u64 {
        self.lsb + self.width
    }
}

impl Derivation {
    /// The used pieces, for a count that stands.
    pub(crate) fn used_pieces(&self) -> Vec<Piece> {
        let packed = &self.pieces[..self.piece_count as usize];
        packed
            .iter()
            .map(|&packed| Piece::from_packed(packed))
            .collect()
    }

    /// Whether number 14 of Add a piece does not hold.
    pub(crate) fn stands(&self) -> bool {
        if self.piece_count as usize > MAX_PIECES || self.input_count as usize > MAX_INPUTS {
            return false;
        }
        let pieces = self.used_pieces();
        let sum: u64 = pieces.iter().map(|piece| piece.width).sum();
        pieces.iter().all(|piece| self.piece_stands(piece))
            && sum == u64::from(self.width)
            && self.width <= MAX_WIDTH
    }

    fn piece_stands(&self, piece: &Piece) -> bool {
        piece.width > 0
            && piece.input < u64::from(self.input_count)
            && piece.end() <= u64::from(MAX_WIDTH)
    }
}
