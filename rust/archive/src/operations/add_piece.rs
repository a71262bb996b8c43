use crate::numbers::{accepted, flat_derivation};
use oracle::{Derivation, Refusal, Side};
use yoksimert::raw;

/// Adds a piece and hands back the next derivation.
pub fn add_piece(
    d: &Derivation,
    side: Side,
    name: u32,
    msb: u32,
    lsb: u32,
) -> Result<Derivation, Refusal> {
    let flat = flat_derivation(d);
    let (mut names, mut pieces) = (d.inputs, d.pieces);
    let call = match side {
        Side::Left => raw::concat_left,
        Side::Right => raw::concat_right,
    };
    let joined = call(flat, &mut names, &mut pieces, name, msb, lsb);
    if joined.number != 0 {
        let left = (joined.next, names, pieces);
        assert_eq!(left, (flat, d.inputs, d.pieces), "refused, and altered");
    }
    accepted(joined.number)?;
    Ok(Derivation {
        width: joined.next.width,
        input_count: joined.next.input_count,
        inputs: names,
        piece_count: joined.next.piece_count,
        pieces,
    })
}
