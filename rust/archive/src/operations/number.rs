use crate::numbers::{accepted, encode};
use oracle::{Description, Form, Refusal};
use yoksimert::raw;

/// Reads an entry as a number.
pub fn number(
    form: Form,
    d: Description,
    bytes: &[u8],
    byte_start: usize,
    entry: u32,
) -> Result<i128, Refusal> {
    let plain = |answer: raw::FlatNumber| (answer.number, i128::from(answer.value));
    let signed = |answer: raw::FlatSigned| (answer.number, i128::from(answer.value));
    let (number, value) = match form {
        Form::Unsigned => plain(raw::unsigned(encode(d), bytes, byte_start, entry)),
        Form::Signed => signed(raw::signed(encode(d), bytes, byte_start, entry)),
        Form::Decimal => plain(raw::decimal(encode(d), bytes, byte_start, entry)),
    };
    if number != 0 {
        assert_eq!(value, 0, "refused, and a value");
    }
    accepted(number)?;
    Ok(value)
}
