//! Fresh.

use super::FlatDescription;

/// The answer of Fresh and of Derive.
#[repr(C)]
#[derive(Clone, Copy, PartialEq, Eq, Debug)]
pub struct FlatMade {
    /// 0, or the refusal
    pub number: u32,
    /// The new record; on a refusal the kind is 3, which is none
    pub description: FlatDescription,
}

// SAFETY: declared as in the header and in the Rattle source, to which tests/declarations.rs holds it. Those
// marked `safe` take numbers alone, and any number will do.
unsafe extern "C" {
    safe fn yoksimert_fresh(width: u32) -> FlatMade;

    safe fn yoksimert_fresh_real() -> FlatDescription;

    fn yoksimert_recorder_fresh(recorder: *mut FlatDescription, width: u32) -> u32;

    fn yoksimert_recorder_fresh_real(recorder: *mut FlatDescription) -> u32;
}

/// Fresh: the empty record of a width; width 0 makes an event. Refused: 1.
#[inline]
#[must_use]
pub fn fresh(width: u32) -> FlatMade {
    yoksimert_fresh(width)
}

/// Fresh: the empty record of reals.
#[inline]
#[must_use]
pub fn fresh_real() -> FlatDescription {
    yoksimert_fresh_real()
}

/// Fresh of a recorder that is lent, whatever it was; the answer is the number. Refused: 1, and the recorder is as it was.
#[inline]
#[must_use]
pub fn recorder_fresh(recorder: &mut FlatDescription, width: u32) -> u32 {
    // SAFETY: one description, lent to this call alone.
    unsafe { yoksimert_recorder_fresh(recorder, width) }
}

/// Fresh of reals, of a recorder that is lent, whatever it was; the answer is 0.
#[inline]
#[must_use]
pub fn recorder_fresh_real(recorder: &mut FlatDescription) -> u32 {
    // SAFETY: one description, lent to this call alone.
    unsafe { yoksimert_recorder_fresh_real(recorder) }
}
