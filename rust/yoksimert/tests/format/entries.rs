//! Levels, sets and entries.

use crate::record::size_of;
use crate::runs::written;
use crate::table::{NOTHING, SETS, bytes_shown, mark_of, number, set_named, span, spans};
use crate::{Replay, Shown};

/// A letter of each set that no smaller set has.
const LETTERS: [&str; 3] = ["0", "x", "h"];

fn none(row: Vec<String>) -> (Vec<String>, Shown) {
    (row, Vec::new())
}

/// code, characters, names in the standards, smallest set
pub struct Levels;

impl Replay for Levels {
    fn row(&mut self, cells: &[String]) -> (Vec<String>, Shown) {
        let mut row = cells.to_vec();
        for character in spans(&cells[1]) {
            let record = written(1, &[character]);
            let set = record.description.set;
            assert_eq!(u32::from(record.bytes[0] >> 6), set);
            row[0] = (record.bytes[0] & 63).to_string();
            row[4] = set_named(set);
            assert_eq!(record.string(0), character.to_lowercase());
            assert!(row == cells, "{character}");
        }
        none(row)
    }
}

/// A letter of IEEE 1164's list, its code, and its small letter. Each is the first of so many characters that its code is read by the table
/// of letters, and not as a part of a word.
pub struct Page;

impl Replay for Page {
    fn row(&mut self, cells: &[String]) -> (Vec<String>, Shown) {
        let letter = span(&cells[0]);
        let entry = |first: &str| written(65, &[&(first.to_string() + &"0".repeat(64))]).bytes;
        let code = (entry(letter)[0] & 63).to_string();
        let small = letter.to_lowercase();
        assert_eq!(entry(&small), entry(letter));
        let small = match small == letter {
            true => NOTHING.to_string(),
            false => format!("`{small}`"),
        };
        none(vec![cells[0].clone(), code, small])
    }
}

/// set, mark, bits a level, codes
pub struct Sets;

impl Replay for Sets {
    fn row(&mut self, cells: &[String]) -> (Vec<String>, Shown) {
        let mark = mark_of(&cells[0]);
        let letter = LETTERS[mark as usize];
        let record = written(8, &[&letter.repeat(8)]);
        assert_eq!(record.description.set, mark);
        let bits = record.read(0).2.len();
        let holds = |c: &str| written(1, &[c]).description.set <= mark;
        let codes = "01xzhuwl-".split("").filter(|c| !c.is_empty());
        let last = codes.take_while(|c| holds(c)).count() - 1;
        let codes = format!("0 to {last}");
        none(vec![
            cells[0].clone(),
            mark.to_string(),
            bits.to_string(),
            codes,
        ])
    }
}

/// width, and for each set the level bytes and the meta byte
pub struct Sizes;

impl Replay for Sizes {
    fn row(&mut self, cells: &[String]) -> (Vec<String>, Shown) {
        let width: u32 = number(&cells[0]);
        let sizes = SETS.iter().zip(LETTERS).map(|(set, letter)| {
            let record = written(width, &[&letter.repeat(width as usize)]);
            assert_eq!(record.description.set, mark_of(set));
            let levels = record.read(0).2.len();
            match record.bytes.len() - levels {
                0 => levels.to_string(),
                meta => format!("{levels} + {meta}"),
            }
        });
        let row = std::iter::once(cells[0].clone()).chain(sizes);
        none(row.collect())
    }
}

/// width, largest set, string, own set, bytes, words
pub struct Entries;

impl Replay for Entries {
    fn row(&mut self, cells: &[String]) -> (Vec<String>, Shown) {
        let (width, string) = (number(&cells[0]), span(&cells[2]));
        let alone = written(width, &[string]);
        let raising = LETTERS[mark_of(&cells[1]) as usize].repeat(width as usize);
        let record = if set_named(alone.description.set) == cells[1] {
            alone
        } else {
            written(width, &[string, &raising])
        };
        let (refused, own, _) = record.read(0);
        assert_eq!((refused, record.string(0).as_str()), (0, string));
        let mut row = cells.to_vec();
        row[1] = set_named(record.description.set);
        row[3] = set_named(own);
        row[4] = bytes_shown(&record.bytes[..size_of(record.description)]);
        none(row)
    }
}
