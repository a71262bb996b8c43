//! Changes, valid and spoilt.

use super::Generator;
use oracle::{Change, Encoding, States};

const LETTERS: &[u8; 9] = b"01xzhuwl-";
/// Foreign characters, most of them next to one of the alphabet, and some of the alphabet.
const NEIGHBOURS: &[u8] = b"2yXg -_\0\xff\x0f/:@[`{HhQ";
const REALS: &[u64] = &[
    0,
    1 << 63,
    0x3ff0_0000_0000_0000,
    0x7ff0_0000_0000_0000,
    0x7ff8_0000_0000_0000,
    0x7ff8_0000_0000_0001,
    0x7ff0_0000_0000_0001,
    0xfff8_0000_dead_beef,
    1,
];

impl Generator {
    /// A change for a record. `last` is the string of the last entry, which often comes again.
    pub(crate) fn change(&mut self, encoding: Encoding, last: Option<&[u8]>) -> Change {
        if self.random.once_in(24) {
            return match encoding {
                Encoding::Real => Change::Text(self.levels(8)),
                _ => Change::Real(self.real()),
            };
        }
        match encoding {
            Encoding::Real => Change::Real(self.real()),
            Encoding::Event => {
                let len = self.random.pick(&[0, 0, 1, 1, 1, 1, 2]);
                Change::Text(self.random.bytes(len))
            }
            Encoding::BitVector { width, .. } => {
                let string = self.string(width, last);
                Change::Text(self.spoilt(string))
            }
        }
    }

    fn real(&mut self) -> u64 {
        if self.random.once_in(6) {
            self.random.number()
        } else {
            self.random.pick(REALS)
        }
    }

    /// A string of the width: the last one again, perhaps in other case, or new levels.
    pub(crate) fn string(&mut self, width: u32, last: Option<&[u8]>) -> Vec<u8> {
        let again = self.random.once_in(4);
        let string = match last {
            Some(last) if again && last.len() == width as usize => last.to_vec(),
            _ => self.levels(width),
        };
        let capital = |byte: u8, yes: bool| if yes { byte.to_ascii_uppercase() } else { byte };
        string
            .into_iter()
            .map(|byte| capital(byte, self.random.once_in(4)))
            .collect()
    }

    /// Small letters of one set, all of them or a single one among equal digits.
    fn levels(&mut self, width: u32) -> Vec<u8> {
        let letters =
            match self
                .random
                .pick(&[States::Two, States::Two, States::Four, States::Nine])
            {
                States::Two => &LETTERS[..2],
                States::Four => &LETTERS[..4],
                States::Nine => &LETTERS[..],
            };
        let width = width as usize;
        if self.random.once_in(3) {
            let mut out = vec![self.random.pick(b"01"); width];
            let at = self.random.below(width);
            out[at] = self.random.pick(letters);
            out
        } else {
            (0..width).map(|_| self.random.pick(letters)).collect()
        }
    }

    /// Now and then a wrong length or another byte, mostly from outside the alphabet.
    fn spoilt(&mut self, mut string: Vec<u8>) -> Vec<u8> {
        match self.random.below(40) {
            0 => string.truncate(string.len() - 1),
            1 => string.push(b'0'),
            2 => string.clear(),
            3 | 4 => {
                let at = self.random.below(string.len());
                string[at] = self.random.pick(NEIGHBOURS);
            }
            5 => {
                let at = self.random.below(string.len());
                string[at] = self.random.byte();
            }
            _ => {}
        }
        string
    }

    /// An index for the next change: mostly rising or equal, sometimes falling, now and then at an end of the range.
    pub(crate) fn next_index(&mut self, last: Option<u32>) -> u32 {
        let low = last.unwrap_or(0);
        match self.random.below(20) {
            0 if self.random.once_in(8) => u32::MAX,
            1 | 2 => low.saturating_sub(self.random.from_to(1, 3) as u32),
            3 => 0,
            4..=8 => low,
            _ => low.saturating_add(self.random.from_to(0, 4) as u32),
        }
    }
}
