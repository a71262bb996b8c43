//! The oracle: every operation of documents 01 and 02 on plain lists, written from the
//! documents, their readings in docs/DECISIONS.md, and the letters of IEEE 1364 and IEEE 1164.
//!
//! It is meant to be checked line by line against the documents, so it takes the
//! plainest form of each sentence: an entry is a list of bits, a string is a list of
//! codes, and each operation tries its refusals in the order written.

mod add_change;
mod add_piece;
mod compare;
mod derivation;
mod derive;
mod entry;
mod fresh;
mod history;
mod level;
mod look_up;
mod number;
mod read;
mod record;
mod search;
mod text;

pub use add_change::{Change, add_change};
pub use add_piece::{Side, add_piece};
pub use compare::{Record, compare};
pub use derivation::{Derivation, MAX_INPUTS, empty_derivation};
pub use derive::{Input, Step, derive, derived_laid_out, derived_list};
pub use fresh::{fresh, fresh_real};
pub use history::{Fed, history, history_laid_out};
pub use level::States;
pub use look_up::{Offset, look_up};
pub use number::{Form, number};
pub use read::{Entry, Kind, read};
pub use record::{Description, Encoding};
pub use search::search;
pub use text::text;

/// The most entries that a record may have (document 01, A record).
pub const MAXIMUM: u32 = 1_048_576;
/// The greatest width of a bit vector (document 01, Fresh).
pub const MAX_WIDTH: u32 = 4_096;

/// A refusal's number in documents 01 and 02.
#[derive(Clone, Copy, PartialEq, Eq, Debug, PartialOrd, Ord)]
pub struct Refusal(pub u8);

/// Refuses with `number` if `condition` holds.
fn refuse_if(condition: bool, number: u8) -> Result<(), Refusal> {
    if condition {
        Err(Refusal(number))
    } else {
        Ok(())
    }
}
