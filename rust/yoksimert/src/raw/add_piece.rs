//! Add a piece.

/// A derivation without the names of its inputs and its pieces. All zeros is the derivation of no piece.
#[repr(C)]
#[derive(Clone, Copy, PartialEq, Eq, Hash, Debug, Default)]
pub struct FlatDerivation {
    /// The number of wires
    pub width: u32,
    /// How many of the eight names are used
    pub input_count: u32,
    /// How many of the 64 pieces are used
    pub piece_count: u32,
}

/// The answer of Add a piece.
#[repr(C)]
#[derive(Clone, Copy, PartialEq, Eq, Debug)]
pub struct FlatJoined {
    /// 0, or the refusal
    pub number: u32,
    /// The derivation for the next call; on a refusal the given one
    pub next: FlatDerivation,
}

// SAFETY: declared as in the header and in the Rattle source, to which tests/declarations.rs holds it.
unsafe extern "C" {
    fn yoksimert_concat_left(
        derivation: FlatDerivation,
        names: *mut [u32; 8],
        pieces: *mut [u64; 64],
        signal: u32,
        msb: u32,
        lsb: u32,
    ) -> FlatJoined;

    fn yoksimert_concat_right(
        derivation: FlatDerivation,
        names: *mut [u32; 8],
        pieces: *mut [u64; 64],
        signal: u32,
        msb: u32,
        lsb: u32,
    ) -> FlatJoined;

    fn yoksimert_concat_left_full(
        derivation: FlatDerivation,
        names: *mut [u32; 8],
        pieces: *mut [u64; 64],
        signal: u32,
        width: u32,
    ) -> FlatJoined;

    fn yoksimert_concat_right_full(
        derivation: FlatDerivation,
        names: *mut [u32; 8],
        pieces: *mut [u64; 64],
        signal: u32,
        width: u32,
    ) -> FlatJoined;
}

/// Add a piece on the left, the most significant side: bits msb to lsb of an input. Refused: 14, 12, 13.
#[inline]
#[must_use]
pub fn concat_left(
    derivation: FlatDerivation,
    names: &mut [u32; 8],
    pieces: &mut [u64; 64],
    signal: u32,
    msb: u32,
    lsb: u32,
) -> FlatJoined {
    // SAFETY: two arrays of the lengths that the function takes, lent to this call alone.
    unsafe { yoksimert_concat_left(derivation, names, pieces, signal, msb, lsb) }
}

/// Add a piece on the right, the least significant side. Refused: 14, 12, 13.
#[inline]
#[must_use]
pub fn concat_right(
    derivation: FlatDerivation,
    names: &mut [u32; 8],
    pieces: &mut [u64; 64],
    signal: u32,
    msb: u32,
    lsb: u32,
) -> FlatJoined {
    // SAFETY: two arrays of the lengths that the function takes, lent to this call alone.
    unsafe { yoksimert_concat_right(derivation, names, pieces, signal, msb, lsb) }
}

/// Add all wires of an input on the left; no wires add nothing. Refused: 14, 12, 13.
#[inline]
#[must_use]
pub fn concat_left_full(
    derivation: FlatDerivation,
    names: &mut [u32; 8],
    pieces: &mut [u64; 64],
    signal: u32,
    width: u32,
) -> FlatJoined {
    // SAFETY: two arrays of the lengths that the function takes, lent to this call alone.
    unsafe { yoksimert_concat_left_full(derivation, names, pieces, signal, width) }
}

/// Add all wires of an input on the right; no wires add nothing. Refused: 14, 12, 13.
#[inline]
#[must_use]
pub fn concat_right_full(
    derivation: FlatDerivation,
    names: &mut [u32; 8],
    pieces: &mut [u64; 64],
    signal: u32,
    width: u32,
) -> FlatJoined {
    // SAFETY: two arrays of the lengths that the function takes, lent to this call alone.
    unsafe { yoksimert_concat_right_full(derivation, names, pieces, signal, width) }
}
