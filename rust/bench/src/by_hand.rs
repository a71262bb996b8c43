//! Add a change written by hand and not proved: the tests of document 01 on slices that are read and written unchecked, behind a call that is
//! not inlined. It shows what these tests cost. Entries of more than eight bytes and strings that raise the set are left out.

use yoksimert::raw::FlatDescription;

const MAXIMUM: usize = 1_048_576;

/// The code of each byte, and 16 for those that are foreign.
const CODES: [u8; 256] = {
    let letters = b"01xzhuwl-";
    let mut codes = [16; 256];
    let mut code = 0;
    while code < letters.len() {
        codes[letters[code] as usize] = code as u8;
        codes[letters[code].to_ascii_uppercase() as usize] = code as u8;
        code += 1;
    }
    codes
};

/// The bytes of an entry under the set with a mark.
pub const fn entry_size(width: usize, set: u32) -> usize {
    match set {
        0 => (width + 7) >> 3,
        1 => (width + 4) >> 2,
        _ => (width + 2) >> 1,
    }
}

/// A string read once: the mark of its least set and its levels, or none where a character is foreign.
fn scan(value: &[u8]) -> Option<(u32, u64)> {
    let (mut union, mut levels) = (0, [0u64; 3]);
    for &character in value {
        let code = CODES[character as usize];
        union |= code;
        for (set, levels) in levels.iter_mut().enumerate() {
            *levels = *levels << (1 << set) | u64::from(code);
        }
    }
    match union {
        0..2 => Some((0, levels[0])),
        2..4 => Some((1, levels[1])),
        4..16 => Some((2, levels[2])),
        _ => None,
    }
}

/// The answer is the archive's: 0, or the number of the refusal.
#[inline(never)]
pub fn add_change(
    recorder: &mut FlatDescription,
    bytes: &mut [u8],
    byte_start: usize,
    indices: &mut [u32],
    index_start: usize,
    index: u32,
    value: &[u8],
) -> u32 {
    let (width, count) = (recorder.width as usize, recorder.count as usize);
    if recorder.kind != 2 || recorder.set > 2 || !(1..=4096).contains(&width) || count > MAXIMUM {
        return 2;
    }
    let size = entry_size(width, recorder.set);
    if bytes.len() < byte_start || bytes.len() - byte_start < count * size {
        return 2;
    }
    if indices.len() < index_start || indices.len() - index_start < count {
        return 2;
    }
    if value.len() != width {
        return 4;
    }
    let Some((set, levels)) = scan(value) else {
        return 5;
    };
    let (at, index_at) = (byte_start + count * size, index_start + count);
    // SAFETY: the tests for 2 have shown that `count` indices are there.
    if count > 0 && index < unsafe { *indices.get_unchecked(index_at - 1) } {
        return 6;
    }
    assert!(size <= 8 && set <= recorder.set, "this one is left out");
    let number = levels | u64::from(set) << (8 * size - 2);
    // SAFETY: the tests for 2 have shown that `count` entries are there.
    let last = |j| u64::from(unsafe { *bytes.get_unchecked(at - size + j) });
    if count > 0 && (0..size).fold(0, |number, j| number << 8 | last(j)) == number {
        return 0;
    }
    if count == MAXIMUM || bytes.len() - at < size || indices.len() == index_at {
        return 7;
    }
    for j in 0..size {
        // SAFETY: the test for 7 has shown that there is room for an entry.
        unsafe { *bytes.get_unchecked_mut(at + size - 1 - j) = (number >> (8 * j)) as u8 };
    }
    // SAFETY: the test for 7 has shown that there is room for an index.
    unsafe { *indices.get_unchecked_mut(index_at) = index };
    recorder.count += 1;
    0
}
