use crate::numbers::{accepted, decode, encode, flat_derivation};
use oracle::{Derivation, Description, Input, MAX_INPUTS, Refusal};
use yoksimert::raw::{self, FlatDescription, FlatInput, FlatInputs};

/// Derives a record. Of more than [`MAX_INPUTS`] records the first are lent, with the number of all.
pub fn derive(
    d: &Derivation,
    inputs: &[Input],
    bytes: &[u8],
    indices: &[u32],
    out_bytes: &mut [u8],
    out_indices: &mut [u32],
) -> Result<Description, Refusal> {
    let slots = flat_inputs(inputs);
    let flat = flat_derivation(d);
    let made = raw::derive(
        flat,
        &d.inputs,
        &d.pieces,
        slots,
        bytes,
        indices,
        out_bytes,
        out_indices,
    );
    accepted(made.number)?;
    Ok(decode(made.description))
}

/// The places behind the inputs hold numbers that are no description: none of them is looked at.
fn flat_inputs(inputs: &[Input]) -> FlatInputs {
    let nothing = FlatInput {
        description: FlatDescription::new(u32::MAX, u32::MAX, u32::MAX, u32::MAX),
        byte_start: usize::MAX,
        index_start: usize::MAX,
    };
    let mut slots = [nothing; MAX_INPUTS];
    for (slot, input) in slots.iter_mut().zip(inputs) {
        *slot = FlatInput {
            description: encode(input.description),
            byte_start: input.byte_start,
            index_start: input.index_start,
        };
    }
    FlatInputs {
        count: u32::try_from(inputs.len()).unwrap_or(u32::MAX),
        inputs: slots,
    }
}
