//! Read, Text, Numbers, Compare and Look up.

use yoksimert::raw::{self, FlatOffset};

use crate::record::record;
use crate::table::{NOTHING, bytes_shown, number, numbers, quoted, set_named, span};
use crate::{Replay, Shown};

/// record, entry, read, own set, part, lent, text, characters
pub struct Reading;

impl Replay for Reading {
    fn row(&mut self, cells: &[String]) -> (Vec<String>, Shown) {
        let record = record(span(&cells[0]));
        let entry = number(&cells[1]);
        let (read, set, part) = record.read(entry);
        let room: usize = number(&cells[5]);
        let (text, out) = record.text(entry, room);
        let mut row = cells.to_vec();
        row[2] = read.to_string();
        row[3] = if read == 0 {
            set_named(set)
        } else {
            NOTHING.to_string()
        };
        row[4] = bytes_shown(&part);
        row[6] = text.to_string();
        let (string, behind) = out.split_at(if text == 0 {
            record.description.width as usize
        } else {
            0
        });
        assert_eq!(behind, ".".repeat(behind.len()));
        row[7] = quoted((text == 0).then_some(string));
        let shown = vec![("Read an entry", read), ("Text of an entry", text)];
        (row, shown)
    }
}

/// record, entry, form, number, value
pub struct Counting;

impl Replay for Counting {
    fn row(&mut self, cells: &[String]) -> (Vec<String>, Shown) {
        let (number, value) = record(span(&cells[0])).number(number(&cells[1]), &cells[2]);
        let mut row = cells[..3].to_vec();
        row.push(number.to_string());
        row.push(match number {
            0 => value.to_string(),
            _ => NOTHING.to_string(),
        });
        (row, vec![("Numbers", number)])
    }
}

/// first, second, answer
pub struct Comparing;

impl Replay for Comparing {
    fn row(&mut self, cells: &[String]) -> (Vec<String>, Shown) {
        let [first, second] = [0, 1].map(|at| record(span(&cells[at])));
        let answer = first.equals(&second);
        let mut row = cells.to_vec();
        row[2] = match (answer.number, answer.equal) {
            (0, true) => "yes".to_string(),
            (0, false) => "no".to_string(),
            (number, _) => number.to_string(),
        };
        (row, vec![("Compare", answer.number)])
    }
}

/// indices, sought, answer, start, entries, equal, next
pub struct Lookups {
    name: &'static str,
    call: fn(&[u32], u32) -> FlatOffset,
}

pub const LOOK_UP: Lookups = Lookups {
    name: "Look up",
    call: raw::look_up,
};

pub const SEARCH: Lookups = Lookups {
    name: "Search",
    call: raw::search,
};

impl Replay for Lookups {
    fn row(&mut self, cells: &[String]) -> (Vec<String>, Shown) {
        let found = (self.call)(&numbers(span(&cells[0])), number(&cells[1]));
        let mut row = vec![cells[0].clone(), cells[1].clone()];
        if found.found {
            let equal = if found.time_match { "yes" } else { "no" };
            let next = match found.has_next {
                true => found.next_index.to_string(),
                false => NOTHING.to_string(),
            };
            let (start, elements) = (found.start.to_string(), found.elements.to_string());
            row.extend([
                "found".to_string(),
                start,
                elements,
                equal.to_string(),
                next,
            ]);
        } else {
            row.push(match found.number {
                0 => "none".to_string(),
                refused => refused.to_string(),
            });
            row.extend([NOTHING; 4].map(str::to_string));
        }
        (row, vec![(self.name, found.number)])
    }
}
