//! Text of an entry (document 01).

use crate::entry::unpack;
use crate::level::{States, letters};
use crate::read::{Entry, read};
use crate::record::{Description, Encoding, Extent};
use crate::{Refusal, refuse_if};

/// Writes the string of an entry into the lent text.
///
/// # Errors
/// 2, 3, 8, 9, 10, 7.
pub fn text(
    d: Description,
    bytes: &[u8],
    byte_start: usize,
    entry: u32,
    out: &mut [u8],
) -> Result<(), Refusal> {
    let (_, codes) = codes_of(d, bytes, byte_start, entry)?;
    let string = letters(&codes)?;
    refuse_if(out.len() < string.len(), 7)?;
    out[..string.len()].copy_from_slice(&string);
    Ok(())
}

/// The own set and the codes of an entry: Text's numbers 2, 3, 8 and 9.
pub(crate) fn codes_of(
    d: Description,
    bytes: &[u8],
    byte_start: usize,
    entry: u32,
) -> Result<(States, Vec<u8>), Refusal> {
    refuse_if(!d.holds_bytes(Extent::new(bytes, byte_start)), 2)?;
    let Encoding::BitVector { width, .. } = d.encoding else {
        return Err(Refusal(3));
    };
    let Entry { states, part, .. } = read(d, bytes, byte_start, entry)?;
    Ok((states, unpack(width, states, &bytes[part])))
}
