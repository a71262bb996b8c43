//! The archive's calls with plain numbers and lent slices, for those who keep their own vectors.
//!
//! The header `include/yoksimert.h` says what the numbers mean. In each answer `number` is 0 where the call is accepted, and else the
//! number of the [`Refusal`](crate::Refusal), which [`Refusal::from_number`](crate::Refusal::from_number) names; the slices are then as
//! they were. Starts count elements from a slice's beginning.
//!
//! ```
//! use yoksimert::{Refusal, raw};
//!
//! let (mut bytes, mut indices) = ([0; 4], [0; 2]);
//! let mut flag = raw::fresh(1).description;
//! for (index, value, answer) in [(5, b"0", 0), (7, b"1", 0), (6, b"0", 6)] {
//!     let number = raw::recorder_add_change(&mut flag, &mut bytes, 1, &mut indices, 0, index, value);
//!     assert_eq!(number, answer);
//! }
//! assert_eq!(Refusal::from_number(6), Some(Refusal::IndexBelowLast));
//! assert_eq!((flag.count, bytes, indices), (2, [0, 0, 1, 0], [5, 7]));
//!
//! let found = raw::look_up(&indices, 6);
//! assert_eq!((found.start, found.elements, found.next_index), (0, 1, 7));
//! let mut text = [0; 1];
//! assert_eq!(raw::text(flag, &bytes, 1, found.start as u32, &mut text), 0);
//! assert_eq!(&text, b"0");
//! ```
//!
//! Here is all unsafe code of the crate. A lent slice crosses as a pointer and a number of elements, a lent array as a pointer. The
//! functions are proved to end, to read and write nothing but what they are lent, and to take any numbers; each is called with a slice's
//! own pointer and length, so every such call is sound. No function keeps a pointer.

mod add_change;
mod add_piece;
mod compare;
mod derive;
mod fresh;
mod look_up;
mod number;
mod read;
mod search;
mod text;
mod version;

pub use add_change::{recorder_add_change, recorder_add_real};
pub use add_piece::{
    FlatDerivation, FlatJoined, concat_left, concat_left_full, concat_right, concat_right_full,
};
pub use compare::{FlatEqual, FlatRecord, compare};
pub use derive::{FlatInput, FlatInputs, derive};
pub use fresh::{FlatMade, fresh, fresh_real, recorder_fresh, recorder_fresh_real};
pub use look_up::{FlatOffset, look_up};
pub use number::{FlatNumber, FlatSigned, decimal, signed, unsigned};
pub use read::{FlatEntry, read};
pub use search::search;
pub use text::text;
pub use version::version;

/// A record without its bytes and time indices. Other numbers than these are no description, and refused with 2.
#[repr(C)]
#[derive(Clone, Copy, PartialEq, Eq, Debug)]
pub struct FlatDescription {
    /// 0 event, 1 real, 2 bit vector
    pub kind: u32,
    /// The number of wires; 0 for an event or a real
    pub width: u32,
    /// The mark of the largest set; 0 for an event or a real
    pub set: u32,
    /// The number of entries
    pub count: u32,
}

impl FlatDescription {
    /// These numbers, be they a description or not.
    #[must_use]
    #[inline]
    pub const fn new(kind: u32, width: u32, set: u32, count: u32) -> Self {
        Self {
            kind,
            width,
            set,
            count,
        }
    }
}
