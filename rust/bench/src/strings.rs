//! Strings to record.

use oracle::States;

pub const SETS: [States; 3] = [States::Two, States::Four, States::Nine];

/// How many wires the strings have. Of 1, 3, 65, 255 and 4,095 the first byte is not full in any set.
pub const WIDTHS: [usize; 10] = [1, 3, 8, 32, 64, 65, 255, 256, 4095, 4096];

/// A string whose least set this is: letters of the set without order, and at one place, which differs from string to string, one that
/// no smaller set has.
pub fn string(states: States, width: usize, seed: u64) -> Vec<u8> {
    let (letters, own): (&[u8], &[u8]) = match states {
        States::Two => (b"01", b"01"),
        States::Four => (b"01xz", b"xz"),
        States::Nine => (b"01xzhuwl-", b"huwl-"),
    };
    let mut state = seed;
    let mut below = |bound: usize| {
        state = state
            .wrapping_mul(6_364_136_223_846_793_005)
            .wrapping_add(1);
        (state >> 33) as usize % bound
    };
    let place = seed as usize % width;
    (0..width)
        .map(|at| if at == place { own } else { letters })
        .map(|letters| letters[below(letters.len())])
        .collect()
}

/// Some strings of a set to be put in a circle: none equals the one before it.
pub fn strings_apart(states: States, width: usize) -> Vec<Vec<u8>> {
    let mut strings: Vec<Vec<u8>> = (0..64).map(|seed| string(states, width, seed)).collect();
    strings.dedup();
    if strings.first() == strings.last() {
        strings.pop();
    }
    strings
}
