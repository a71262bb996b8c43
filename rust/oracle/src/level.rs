//! Levels, codes and state sets (document 01, A level).

use crate::Refusal;

/// The letters of the codes 0 to 8: the four values of IEEE 1364, then the
/// rest of the nine of IEEE 1164.
const LETTERS: [u8; 9] = *b"01xzhuwl-";

/// A state set.
#[derive(Clone, Copy, PartialEq, Eq, Debug, PartialOrd, Ord)]
pub enum States {
    /// Codes 0 and 1.
    Two,
    /// Codes 0 to 3.
    Four,
    /// Codes 0 to 8.
    Nine,
}

impl States {
    /// The number that stands for the set in an entry.
    pub fn mark(self) -> u8 {
        match self {
            States::Two => 0,
            States::Four => 1,
            States::Nine => 2,
        }
    }

    /// The number of bits that one level takes.
    pub fn bits(self) -> u32 {
        match self {
            States::Two => 1,
            States::Four => 2,
            States::Nine => 4,
        }
    }
}

/// The code of a character, or nothing for a foreign one. Capitals fold to small letters.
fn code(character: u8) -> Option<u8> {
    let letter = character.to_ascii_lowercase();
    (0..9).find(|&code| LETTERS[usize::from(code)] == letter)
}

/// The codes of a string, or nothing if a character is foreign.
pub(crate) fn codes(string: &[u8]) -> Option<Vec<u8>> {
    string.iter().map(|&character| code(character)).collect()
}

/// The string of a list of codes, in small letters. 10: a code 9 to 15.
pub(crate) fn letters(codes: &[u8]) -> Result<Vec<u8>, Refusal> {
    let letter = |&code: &u8| LETTERS.get(usize::from(code)).copied();
    codes
        .iter()
        .map(letter)
        .collect::<Option<_>>()
        .ok_or(Refusal(10))
}

/// The smallest set that holds all the codes.
pub(crate) fn least_set(codes: &[u8]) -> States {
    let greatest = codes.iter().max().copied().unwrap_or(0);
    match greatest {
        0..=1 => States::Two,
        2..=3 => States::Four,
        _ => States::Nine,
    }
}
