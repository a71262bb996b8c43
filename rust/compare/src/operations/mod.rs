//! The operations, one file for each: what a call is lent, its generator, wellen's domain, how the oracle, wellen and
//! the archive are called, smaller calls, the stored form, and the equation over the definitions. A new one is its file
//! and two lines here.

pub mod add_change;
pub mod add_piece;
pub mod compare;
pub mod derive;
pub mod fresh;
pub mod look_up;
pub mod number;
pub mod read;
pub mod search;
pub mod text;

use crate::operation::Listed;

/// All of them; a record is asked what they have for it in this order.
pub const OPERATIONS: &[Listed] = &[
    Listed::of::<fresh::Fresh>(),
    Listed::of::<add_change::AddChange>(),
    Listed::of::<read::Read>(),
    Listed::of::<text::Text>(),
    Listed::of::<look_up::LookUp>(),
    Listed::of::<compare::Compare>(),
    Listed::of::<add_piece::AddPiece>(),
    Listed::of::<derive::Derive>(),
    Listed::of::<number::Number<number::Unsigned>>(),
    Listed::of::<number::Number<number::Signed>>(),
    Listed::of::<number::Number<number::Decimal>>(),
    Listed::of::<search::Search>(),
];

/// The documents that ask for them, in the order of the stored answers, and 0 for what none asks for.
pub const DOCUMENTS: &[u8] = &[1, 2, 0];

/// Every number that an operation refuses with, once each, rising.
pub fn numbers() -> Vec<u8> {
    let mut out: Vec<u8> = OPERATIONS
        .iter()
        .flat_map(|operation| operation.numbers)
        .copied()
        .collect();
    out.sort_unstable();
    out.dedup();
    out
}
