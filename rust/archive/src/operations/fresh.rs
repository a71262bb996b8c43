use crate::numbers::{accepted, decode, next_of};
use oracle::{Description, Refusal};
use yoksimert::raw::{self, FlatDescription};

/// The empty record of a width; width 0 makes an event.
pub fn fresh(width: u32) -> Result<Description, Refusal> {
    let made = raw::fresh(width);
    accepted(made.number)?;
    Ok(decode(made.description))
}

/// The same by the call that is lent a recorder, which may have held anything.
pub fn recorder_fresh(width: u32) -> Result<Description, Refusal> {
    let held = FlatDescription::new(width ^ 5, !width, 9, 7);
    let mut lent = held;
    next_of(raw::recorder_fresh(&mut lent, width), held, lent)
}

/// The empty record of reals.
pub fn fresh_real() -> Description {
    decode(raw::fresh_real())
}
