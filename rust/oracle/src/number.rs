//! Numbers off the bus (document 02).

use crate::level::letters;
use crate::record::Description;
use crate::text::codes_of;
use crate::{Refusal, refuse_if};

/// How an entry is read as a number.
#[derive(Clone, Copy, PartialEq, Eq, Debug)]
pub enum Form {
    /// Binary, without a sign.
    Unsigned,
    /// Binary, two's complement.
    Signed,
    /// Packed decimal, "four bits a digit, highest first".
    Decimal,
}

/// Reads an entry as a number, which every form's largest and smallest fit. "What counts is
/// the characters", so the own set has no part in it.
///
/// # Errors
/// 2, 3, 8, 9, 10, 16, 17, 18.
pub fn number(
    form: Form,
    d: Description,
    bytes: &[u8],
    byte_start: usize,
    entry: u32,
) -> Result<i128, Refusal> {
    let (_, codes) = codes_of(d, bytes, byte_start, entry)?;
    let text = letters(&codes)?;
    refuse_if(text.len() > 64, 16)?;
    refuse_if(form == Form::Decimal && !text.len().is_multiple_of(4), 16)?;
    let bits = text.iter().map(bit).collect::<Result<Vec<i128>, _>>()?;
    match form {
        Form::Unsigned => Ok(binary(&bits)),
        Form::Signed => Ok(twos_complement(&bits)),
        Form::Decimal => decimal(&bits),
    }
}

/// 17: "a level other than 0 or 1".
fn bit(character: &u8) -> Result<i128, Refusal> {
    match character {
        b'0' => Ok(0),
        b'1' => Ok(1),
        _ => Err(Refusal(17)),
    }
}

/// The first bit is the highest.
fn binary(bits: &[i128]) -> i128 {
    bits.iter().fold(0, |number, bit| number * 2 + bit)
}

/// The first bit counts below zero what it counts above it in binary.
fn twos_complement(bits: &[i128]) -> i128 {
    let mut negated = bits.to_vec();
    negated[0] = -negated[0];
    binary(&negated)
}

/// 18: "a digit above 9".
fn decimal(bits: &[i128]) -> Result<i128, Refusal> {
    let digits: Vec<i128> = bits.chunks(4).map(binary).collect();
    refuse_if(digits.iter().any(|&digit| digit > 9), 18)?;
    Ok(digits.iter().fold(0, |number, digit| number * 10 + digit))
}
