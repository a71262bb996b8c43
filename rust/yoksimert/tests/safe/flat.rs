//! Arbitrary numbers through the plain calls of derivations, beside the oracle.

use crate::random::Random;
use oracle::{Derivation, Refusal, Side, add_piece};
use std::collections::BTreeSet;
use yoksimert::raw::{self, FlatDerivation, FlatDescription, FlatInput, FlatInputs, FlatJoined};

const ROUNDS: u32 = 60_000;
const EDGES: [u32; 9] = [0, 1, 7, 8, 9, 4_095, 4_096, 4_097, u32::MAX];

fn number(random: &mut Random) -> u32 {
    match random.below(4) {
        0 => random.pick(&EDGES),
        1 => random.next() as u32,
        _ => random.below(6),
    }
}

/// Pieces of which many stand, and a width that is mostly their sum.
fn derivation(random: &mut Random) -> Derivation {
    let mut pieces = [0; 64];
    for packed in &mut pieces {
        let (input, width, lsb) = (random.below(4), 1 + random.below(5), random.below(9));
        *packed = u64::from(input) << 48 | u64::from(width) << 32 | u64::from(lsb);
        if random.one_in(200) {
            *packed = random.next();
        }
    }
    let piece_count = match random.below(8) {
        0 => number(random),
        1 => 64,
        _ => random.below(6),
    };
    let used = pieces.iter().take(piece_count as usize);
    let sum = used
        .map(|packed| (packed >> 32) as u16)
        .map(u32::from)
        .sum();
    let wrong = random.one_in(10);
    Derivation {
        width: if wrong { number(random) } else { sum },
        input_count: random.pick(&[3, 4, 7, 8, 8, 8, 9, u32::MAX]),
        inputs: std::array::from_fn(|_| random.below(12)),
        piece_count,
        pieces,
    }
}

fn flat(d: &Derivation) -> FlatDerivation {
    FlatDerivation {
        width: d.width,
        input_count: d.input_count,
        piece_count: d.piece_count,
    }
}

/// A piece by its bits, or of all wires of an input.
#[derive(Clone, Copy)]
enum Piece {
    Bits(u32, u32),
    Full(u32),
}

fn called(d: &Derivation, side: Side, name: u32, piece: Piece) -> (u32, Derivation) {
    let (mut names, mut pieces) = (d.inputs, d.pieces);
    let (flat, lent, lent_pieces) = (flat(d), &mut names, &mut pieces);
    let FlatJoined { number, next } = match (side, piece) {
        (Side::Left, Piece::Bits(msb, lsb)) => {
            raw::concat_left(flat, lent, lent_pieces, name, msb, lsb)
        }
        (Side::Right, Piece::Bits(msb, lsb)) => {
            raw::concat_right(flat, lent, lent_pieces, name, msb, lsb)
        }
        (Side::Left, Piece::Full(width)) => {
            raw::concat_left_full(flat, lent, lent_pieces, name, width)
        }
        (Side::Right, Piece::Full(width)) => {
            raw::concat_right_full(flat, lent, lent_pieces, name, width)
        }
    };
    let left = Derivation {
        width: next.width,
        input_count: next.input_count,
        inputs: names,
        piece_count: next.piece_count,
        pieces,
    };
    (number, left)
}

fn expected(d: &Derivation, side: Side, name: u32, piece: Piece) -> (u32, Derivation) {
    let answer = match piece {
        // No wires add nothing, and 14 is tried all the same: before 12, which this range would be.
        Piece::Full(0) => match add_piece(d, side, name, 0, 1) {
            Err(Refusal(14)) => Err(Refusal(14)),
            _ => Ok(*d),
        },
        Piece::Full(width) => add_piece(d, side, name, width - 1, 0),
        Piece::Bits(msb, lsb) => add_piece(d, side, name, msb, lsb),
    };
    match answer {
        Ok(next) => (0, next),
        Err(refusal) => (refusal.0.into(), *d),
    }
}

#[test]
fn arbitrary_derivations_join_as_by_the_oracle() {
    let mut random = Random::new(7);
    let mut numbers = BTreeSet::new();
    for _ in 0..ROUNDS {
        let d = derivation(&mut random);
        let name = random.below(14);
        let side = random.pick(&[Side::Left, Side::Right]);
        let piece = if random.one_in(3) {
            Piece::Full(number(&mut random))
        } else {
            Piece::Bits(number(&mut random), number(&mut random))
        };
        let left = called(&d, side, name, piece);
        assert_eq!(left, expected(&d, side, name, piece));
        numbers.insert(left.0);
    }
    assert_eq!(numbers, BTreeSet::from([0, 12, 13, 14]));
}

/// A derivation of bit 0 of one input.
fn one_bit() -> (FlatDerivation, [u32; 8], [u64; 64]) {
    let (mut names, mut pieces) = ([0; 8], [0; 64]);
    let joined = raw::concat_left(FlatDerivation::default(), &mut names, &mut pieces, 5, 0, 0);
    assert_eq!(joined.number, 0);
    (joined.next, names, pieces)
}

fn input(kind: u32, byte_start: usize, index_start: usize) -> FlatInput {
    FlatInput {
        description: FlatDescription::new(kind, 1, 0, 1),
        byte_start,
        index_start,
    }
}

/// Derives with so many copies of an input over one byte and one index; the output slices have room for one entry.
fn derived(count: u32, input: FlatInput) -> (u32, [u8; 2], [u32; 2]) {
    let (derivation, names, pieces) = one_bit();
    let inputs = FlatInputs {
        count,
        inputs: [input; 8],
    };
    let (mut bytes, mut indices) = ([7; 2], [9; 2]);
    let made = raw::derive(
        derivation,
        &names,
        &pieces,
        inputs,
        &[1],
        &[0],
        &mut bytes[..1],
        &mut indices[..1],
    );
    assert_eq!(made.description.kind, if made.number == 0 { 2 } else { 3 });
    (made.number, bytes, indices)
}

#[test]
fn arbitrary_inputs_are_refused() {
    assert_eq!(derived(1, input(2, 0, 0)), (0, [1, 7], [0, 9]));
    let refused = |number| (number, [7; 2], [9; 2]);
    for kind in [0, 1, 3, u32::MAX] {
        assert_eq!(derived(1, input(kind, 0, 0)), refused(2), "no description");
    }
    for start in [1, 2, usize::MAX - 1, usize::MAX] {
        assert_eq!(derived(1, input(2, start, 0)), refused(2));
        assert_eq!(derived(1, input(2, 0, start)), refused(2));
    }
    for count in [0, 2, 8, 9, u32::MAX] {
        assert_eq!(derived(count, input(2, 0, 0)), refused(14));
    }
}
