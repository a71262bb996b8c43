//! Line records over the proved archive `libyoksimert.a`, under the names of the Rust crate wellen.
//!
//! A [`SignalWriter`] packs changes into a record, a [`Signal`] is read, looked up and compared, and [`transform_signal`] derives one
//! from others. The answers of the documents' operations are the archive's; this crate keeps the vectors, turns numbers into types, looks
//! at lengths, and picks single levels. A call that cannot be answered gives a [`Refusal`]; none panics.
//!
//! The archive is looked for in the folder `YOKSIMERT_LIB_DIR`, or, where that is not set, where the repository or a package has it. Without
//! it the build stops; the documentation of this crate by itself is built all the same.
//!
//! ```
//! use yoksimert::{DerivedBitVecSignal, Refusal, SignalWriter, transform_signal};
//!
//! # fn main() -> Result<(), Refusal> {
//! let mut tariff = SignalWriter::new(4)?;
//! tariff.add_change(0, "zzzz")?;
//! tariff.add_change(7, "0001")?;
//! assert_eq!(tariff.add_change(6, "0010"), Err(Refusal::IndexBelowLast));
//! let tariff = tariff.finish();
//!
//! let (since, levels) = tariff.value_at(9)?.expect("a change at or before 9");
//! assert_eq!((since, levels.to_string()), (7, "0001".to_string()));
//!
//! let low = DerivedBitVecSignal::new_slice(0, 1, 0)?;
//! let low = transform_signal(&low, &[&tariff])?;
//! assert_eq!(low.get_entry(1)?.to_string(), "01");
//! # Ok(())
//! # }
//! ```

#![deny(unsafe_code)]
#![warn(missing_docs)]

// The sentence of build.rs that says why there is no archive to link.
#[cfg(not(any(archive, doc)))]
compile_error!(env!("YOKSIMERT_STOP"));

mod bits;
mod change;
mod changes;
mod checked;
mod convert;
mod derived;
mod encoding;
mod look_up;
mod memory;
mod number;
#[allow(unsafe_code, reason = "the calls through C's interface")]
pub mod raw;
mod refusal;
mod signal;
mod value;
mod writer;

pub use bits::{Bit, Bits};
pub use change::{Added, FstSignalValue};
pub use changes::Changes;
pub use checked::Unsound;
pub use derived::{DerivedBitVecSignal, transform_signal};
pub use encoding::FixedWidthEncoding;
pub use look_up::DataOffset;
pub use refusal::Refusal;
pub use signal::Signal;
pub use value::{BitVecRef, SignalValueRef, States};
pub use writer::{NotResumed, SignalWriter};

/// A place in the list of times.
pub type TimeTableIdx = u32;
/// A place in the list of times that is not the first.
pub type NonZeroTimeTableIdx = std::num::NonZeroU32;

/// The most entries of a record.
pub const MAXIMUM: usize = 1_048_576;

/// The version of the archive's interface. A program with this crate does not link with an archive of another one: the linker then misses
/// the function that has this number in its name.
pub const VERSION: u32 = 1;

/// The programs of the documents. `cfg(documents)`: the crate stands among them, and not by itself.
#[cfg(doctest)]
mod documents {
    #[doc = include_str!("../README.md")]
    mod readme {}

    #[cfg(documents)]
    #[doc = include_str!("../../../docs/FROM-WELLEN.md")]
    mod from_wellen {}

    #[cfg(documents)]
    #[doc = include_str!("../../../README.md")]
    mod readme_of_all {}
}
