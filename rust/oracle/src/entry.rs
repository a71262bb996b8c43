//! The layout of one bit-vector entry (document 01, An entry).

use crate::level::States;
use crate::{Refusal, refuse_if};

/// L: the bytes that the levels take in a set.
#[expect(
    clippy::manual_div_ceil,
    reason = "the formulas as document 01 writes them"
)]
pub(crate) fn level_bytes(width: u32, states: States) -> usize {
    let w = width as usize;
    match states {
        States::Two => (w + 7) / 8,
        States::Four => (w + 3) / 4,
        States::Nine => (w + 1) / 2,
    }
}

/// Whether an entry under this largest set has a meta byte.
fn has_meta_byte(width: u32, largest: States) -> bool {
    match largest {
        States::Two => false,
        States::Four => width.is_multiple_of(4),
        States::Nine => width.is_multiple_of(2),
    }
}

/// The bytes that an entry takes under this largest set.
pub(crate) fn entry_size(width: u32, largest: States) -> usize {
    level_bytes(width, largest) + usize::from(has_meta_byte(width, largest))
}

/// The lowest `length` binary digits of a number, the highest first.
fn digits(number: u8, length: u32) -> Vec<u8> {
    (0..length)
        .rev()
        .map(|place| number / 2u8.pow(place) % 2)
        .collect()
}

/// The number with these binary digits, the highest first.
fn number(digits: &[u8]) -> u8 {
    digits.iter().fold(0, |number, digit| number * 2 + digit)
}

/// The bits of a list of bytes, the highest of the first byte first.
fn to_bits(bytes: &[u8]) -> Vec<u8> {
    bytes.iter().flat_map(|&byte| digits(byte, 8)).collect()
}

/// The bytes of a list of bits.
fn to_bytes(bits: &[u8]) -> Vec<u8> {
    bits.chunks(8).map(number).collect()
}

/// The entry with these codes and this own set under the largest set: zeros, then
/// the levels, the first character highest; the mark is its top two bits.
pub(crate) fn pack(width: u32, largest: States, own: States, codes: &[u8]) -> Vec<u8> {
    let levels: Vec<u8> = codes
        .iter()
        .flat_map(|&code| digits(code, own.bits()))
        .collect();
    let mut bits = vec![0; entry_size(width, largest) * 8 - levels.len()];
    bits.extend(levels);
    if largest != States::Two {
        bits[..2].copy_from_slice(&digits(own.mark(), 2));
    }
    to_bytes(&bits)
}

/// The codes in the bytes that hold the levels of a set: the lowest bits, so many
/// as the levels take. In set Nine a code may be 9 to 15.
pub(crate) fn unpack(width: u32, own: States, part: &[u8]) -> Vec<u8> {
    let bits = to_bits(part);
    let levels = width as usize * own.bits() as usize;
    bits[bits.len() - levels..]
        .chunks(own.bits() as usize)
        .map(number)
        .collect()
}

/// The own set of an entry. 9: mark 3, or above the largest set. Under the
/// largest set Two no mark is stored.
pub(crate) fn own_set(largest: States, entry: &[u8]) -> Result<States, Refusal> {
    if largest == States::Two {
        return Ok(States::Two);
    }
    let own = match number(&to_bits(&entry[..1])[..2]) {
        0 => States::Two,
        1 => States::Four,
        2 => States::Nine,
        _ => return Err(Refusal(9)),
    };
    refuse_if(own > largest, 9)?;
    Ok(own)
}

/// An entry moved to a greater largest set, whatever its bytes are: where the layout differs,
/// a byte with the old mark, zeros, and the old level bytes. For an entry that a writer made
/// this is its layout under the new set; bad marks and stray bits move as they stand
/// (document 01, An entry).
pub(crate) fn widen(width: u32, old: States, new: States, entry: &[u8]) -> Vec<u8> {
    let layout = |set| (level_bytes(width, set), has_meta_byte(width, set));
    if layout(old) == layout(new) {
        return entry.to_vec();
    }
    let (mark, levels) = take_mark(width, old, entry);
    let zeros = entry_size(width, new) - 1 - levels.len();
    [to_bytes(&mark), vec![0; zeros], levels].concat()
}

/// The byte of bits that holds an entry's mark and nothing else, and its level bytes without it.
fn take_mark(width: u32, largest: States, entry: &[u8]) -> (Vec<u8>, Vec<u8>) {
    if largest == States::Two {
        return (vec![0; 8], entry.to_vec());
    }
    let mut bits = to_bits(entry);
    let mut mark = vec![0; 8];
    mark[..2].copy_from_slice(&bits[..2]);
    if has_meta_byte(width, largest) {
        return (mark, entry[1..].to_vec());
    }
    bits[..2].fill(0);
    (mark, to_bytes(&bits))
}
