//! wellen 0.25.7's own functions under the oracle's types.
//!
//! `build.rs` cuts them out of wellen's source (see there for where it is looked for). A panic of theirs is a
//! refusal, as document 01 has it; build with the profile `judge`, which keeps their assertions. wellen numbers
//! no refusal, and knows neither lent slices nor the limits that document 01 adds.

mod types;
pub use types::{Pieces, Refused, Used, Value};

#[cfg(wellen)]
#[allow(warnings, clippy::all)]
mod wellen {
    include!(concat!(env!("OUT_DIR"), "/wellen.rs"));
}
#[cfg(wellen)]
mod calls;
#[cfg(wellen)]
mod panics;
#[cfg(wellen)]
mod stand_ins;
#[cfg(wellen)]
pub use calls::{
    Record, Writer, add_change, add_piece, derive, derive_unguarded, expand, least, pack,
};

/// Whether wellen's source was there when this crate was built. Without it there is nothing but the types; crates
/// that depend on this one see it in their build scripts, as `DEP_WELLEN_PRESENT`.
pub const PRESENT: bool = cfg!(wellen);
