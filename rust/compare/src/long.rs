//! What the generated calls are too short for: records and lists of the maximum length, every first byte of narrow entries, and every byte
//! as a character.

use crate::generate::Receiver;
use crate::operations::add_change::AddChange;
use crate::operations::look_up::LookUp;
use crate::operations::number::in_every_form;
use crate::operations::read::read_and_text;
use crate::random::Random;
use crate::record::{LentRecord, SETS, entry_size};
use oracle::{Change, Description, Encoding, MAXIMUM, States};

/// Every entry of two bytes at most at widths 1 to 3, read, as text and as numbers: marks, levels and stray bits of every kind.
pub fn every_first_byte(to: &mut dyn Receiver) {
    for width in 1..=3 {
        for max_states in SETS {
            let encoding = Encoding::BitVector { width, max_states };
            let size = entry_size(encoding);
            for first in 0..=255 {
                let seconds = if size == 1 { 0..=0 } else { 0..=255 };
                for second in seconds {
                    look_at(encoding, &[first, second][..size], to);
                }
            }
        }
    }
}

fn look_at(encoding: Encoding, entry: &[u8], to: &mut dyn Receiver) {
    let bytes = [&[0x5a], entry, &[0x5a]].concat();
    let record = LentRecord {
        byte_start: 1,
        ..LentRecord::new(Description::counting(encoding, 1), &bytes, &[])
    };
    in_every_form(&record, 0, to);
    read_and_text(record, 0, vec![0x5a; 4], to);
}

/// Every byte as the first, a middle and the last one of characters of each set, put to a fresh record and then once more: at widths whose
/// strings are read as one word, by the table of letters, in words and in blocks, with a first byte that is full and one that is not.
pub fn every_character(to: &mut dyn Receiver) {
    for width in [1, 3, 8, 13, 16, 33, 64, 65, 71] {
        let mut places = vec![0, width / 2, width - 1];
        places.dedup();
        for (fill, place) in b"0xh"
            .iter()
            .flat_map(|fill| places.iter().map(move |at| (fill, at)))
        {
            for byte in 0..=255 {
                let mut string = vec![*fill; width];
                string[*place] = byte;
                twice(string, to);
            }
        }
    }
}

fn twice(string: Vec<u8>, to: &mut dyn Receiver) {
    let encoding = Encoding::BitVector {
        width: string.len() as u32,
        max_states: States::Two,
    };
    let mut record = LentRecord::new(Description::counting(encoding, 0), &[0x5a; 80], &[7; 2]);
    for index in 0..2 {
        let asked = to.call(AddChange {
            record: record.clone(),
            index,
            change: Change::Text(string.clone()),
        });
        let outcome = asked.outcome;
        let description = outcome.answer.unwrap_or(record.description);
        record = LentRecord::new(description, &outcome.bytes, &outcome.indices);
    }
}

/// Around every index of lists with runs of equal ones: short lists whose runs are of every kind, and lists of the maximum length, one
/// below it and one above it.
pub fn look_ups(seed: u64, to: &mut dyn Receiver) {
    let mut random = Random::new(seed);
    for length in [1, 2, 3, 50, 500, 2_000] {
        let runs = std::iter::from_fn(|| Some(random.pick(&[1, 1, 2, 3, 7, 40])));
        around(&list(length, runs), to);
    }
    const LONG: [usize; 9] = [1, 2, 65_535, 65_536, 65_537, 3, 131_072, 196_607, 1];
    for length in [MAXIMUM - 1, MAXIMUM, MAXIMUM + 1] {
        around(&list(length as usize, LONG.into_iter().cycle()), to);
    }
    equal_indices(to);
}

/// Around lists of one index: as many entries as a count of 16 bits holds and as it wraps at, document 02's 70,000, and the maximum.
pub fn equal_indices(to: &mut dyn Receiver) {
    for entries in [65_535, 65_536, 70_000, 131_072, MAXIMUM as usize] {
        around(&vec![7; entries], to);
    }
}

/// Rising indices in runs of the given lengths, an odd one for each run.
fn list(length: usize, runs: impl Iterator<Item = usize>) -> Vec<u32> {
    let mut out = Vec::with_capacity(length);
    for (number, run) in runs.enumerate() {
        let run = run.min(length - out.len());
        out.extend(std::iter::repeat_n(number as u32 * 3 + 1, run));
        if out.len() == length {
            break;
        }
    }
    out
}

fn around(indices: &[u32], to: &mut dyn Receiver) {
    let mut distinct = indices.to_vec();
    distinct.dedup();
    for index in distinct {
        for sought in [index - 1, index, index + 1] {
            to.call(LookUp {
                indices: indices.to_vec(),
                sought,
            });
        }
    }
}

/// Records of the maximum length through the archive beside wellen's live writer, with a raise at the end. Says how many changes were
/// made, or what disagrees.
#[cfg(wellen)]
pub fn longest_runs() -> Result<u64, String> {
    const RAISES: [(u32, [&str; 2]); 9] = [
        (1, ["x", "-"]),
        (2, ["1z", "h0"]),
        (3, ["x01", "hz1"]),
        (4, ["10xz", "uuuu"]),
        (5, ["0000x", "1-1-1"]),
        (7, ["zzzzzzz", "wl01xzh"]),
        (8, ["x0000000", "0000000l"]),
        (9, ["00000000x", "u00000000"]),
        (16, ["zzzzxxxx00001111", "------------0000"]),
    ];
    let mut changes = 0;
    for (width, raises) in RAISES {
        for raise in 0..3 {
            let raises = &raises[..raise.min(2)];
            changes += full::run(width, raises)
                .map_err(|what| format!("width {width}, {raises:?}: {what}"))?;
        }
    }
    Ok(changes)
}

#[cfg(wellen)]
mod full {
    use oracle::{Change, MAXIMUM, Refusal};
    use reference::Writer;

    /// As many changes as a record holds, the last ones those that raise the set, then a repeat of the last one, and one too many.
    pub fn run(width: u32, raises: &[&str]) -> Result<u64, String> {
        let mut both = Both::fresh(width);
        let plain = MAXIMUM - raises.len() as u32;
        for number in 0..plain {
            both.add(number / 3, &string(width, number))?;
        }
        for (raise, number) in raises.iter().zip(plain..) {
            both.add(number / 3, raise.as_bytes())?;
        }
        let last = match raises.last() {
            Some(raise) => raise.as_bytes().to_vec(),
            None => string(width, plain - 1),
        };
        both.add(MAXIMUM, &last)?;
        both.compare()?;
        both.refuse_one_more(&string(width, plain))?;
        both.compare()?;
        Ok(u64::from(MAXIMUM) + 2)
    }

    /// Digits that differ from those of the number before.
    fn string(width: u32, number: u32) -> Vec<u8> {
        let pattern = number.wrapping_mul(0x9e37_79b9) & !1 | number & 1;
        let digit = |place: u32| b'0' + (pattern.rotate_right(place) & 1) as u8;
        (0..width).rev().map(digit).collect()
    }

    struct Both {
        next: oracle::Description,
        bytes: Vec<u8>,
        indices: Vec<u32>,
        writer: Writer,
    }

    impl Both {
        fn fresh(width: u32) -> Self {
            let size = width as usize / 2 + 1;
            Self {
                next: archive::fresh(width).expect("the width stands"),
                bytes: vec![0x5a; (MAXIMUM as usize + 1) * size],
                indices: vec![0x5a5a_5a5a; MAXIMUM as usize + 1],
                writer: Writer::fresh(width),
            }
        }

        fn offer(&mut self, index: u32, string: &[u8]) -> Result<oracle::Description, Refusal> {
            let (bytes, indices) = (&mut self.bytes, &mut self.indices);
            let change = Change::Text(string.to_vec());
            archive::add_change(self.next, bytes, 0, indices, 0, index, &change)
        }

        fn add(&mut self, index: u32, string: &[u8]) -> Result<(), String> {
            self.next = self
                .offer(index, string)
                .map_err(|Refusal(number)| format!("refused with {number} at {index}"))?;
            self.writer.add_string_unguarded(index, string);
            Ok(())
        }

        fn refuse_one_more(&mut self, string: &[u8]) -> Result<(), String> {
            match self.offer(MAXIMUM, string) {
                Err(Refusal(7)) => Ok(()),
                other => Err(format!("one too many: {other:?}")),
            }
        }

        /// The used parts, and what lies behind them.
        fn compare(&self) -> Result<(), String> {
            let (bytes, rest) = self.bytes.split_at(self.writer.bytes().len());
            let (indices, unused) = self.indices.split_at(self.writer.indices().len());
            let same = self.next == self.writer.description()
                && self.next.count == MAXIMUM
                && bytes == self.writer.bytes()
                && indices == self.writer.indices();
            let kept = rest.iter().all(|&byte| byte == 0x5a)
                && unused.iter().all(|&index| index == 0x5a5a_5a5a);
            match (same, kept) {
                (true, true) => Ok(()),
                (false, _) => Err(format!("another record: {:?}", self.next)),
                (true, false) => Err("something behind the used part was altered".to_string()),
            }
        }
    }
}
