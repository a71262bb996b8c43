//! Fresh (document 01).

use crate::level::States;
use crate::record::{Description, Encoding};
use crate::{MAX_WIDTH, Refusal, refuse_if};

/// The empty record of a width; width 0 makes an event.
///
/// # Errors
/// 1.
pub fn fresh(width: u32) -> Result<Description, Refusal> {
    refuse_if(width > MAX_WIDTH, 1)?;
    let encoding = match width {
        0 => Encoding::Event,
        _ => Encoding::BitVector {
            width,
            max_states: States::Two,
        },
    };
    Ok(Description::empty(encoding))
}

/// The empty record of reals.
pub fn fresh_real() -> Description {
    Description::empty(Encoding::Real)
}
