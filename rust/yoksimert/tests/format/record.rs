//! Records as the document writes them, and the calls on lent slices with something on both sides of the used part.

use yoksimert::raw::{self, FlatDescription, FlatRecord};

use crate::table::{hex, mark_of, number, numbers};

const BESIDE: usize = 2;
const BYTE: u8 = 0xee;
const INDEX: u32 = 0xeeee;

/// A description and its used part.
#[derive(Clone, PartialEq, Debug)]
pub struct Record {
    pub description: FlatDescription,
    pub bytes: Vec<u8>,
    pub indices: Vec<u32>,
}

/// The bytes of one entry.
pub fn size_of(description: FlatDescription) -> usize {
    let width = description.width as usize;
    match (description.kind, description.set) {
        (0, _) => 0,
        (1, _) => 8,
        (_, 0) => width.div_ceil(8),
        (_, 1) => width.div_ceil(4) + usize::from(width % 4 == 0),
        (_, _) => width.div_ceil(2) + usize::from(width % 2 == 0),
    }
}

fn described(kind: &str, count: u32) -> FlatDescription {
    let (kind, width, set) = match kind {
        "event" => (0, 0, 0),
        "real" => (1, 0, 0),
        _ => {
            let (width, set) = kind.split_once(' ').expect("a width and a set");
            (2, number(width.trim_start_matches('w')), mark_of(set))
        }
    };
    FlatDescription::new(kind, width, set, count)
}

/// `w3 Four: 61 c1 at 0 4`
pub fn record(text: &str) -> Record {
    let (kind, rest) = text.split_once(':').expect("a kind and entries");
    let (bytes, indices) = match rest.split_once("at") {
        Some((bytes, indices)) => (hex(bytes), numbers(indices)),
        None => (Vec::new(), Vec::new()),
    };
    Record {
        description: described(kind, indices.len() as u32),
        bytes,
        indices,
    }
}

/// Slices that hold a used part from a start on, with room for so many elements from there on, and something before and behind that.
pub struct Slices {
    pub bytes: Vec<u8>,
    pub indices: Vec<u32>,
    pub start: usize,
}

pub fn lent(record: &Record, bytes: usize, indices: usize) -> Slices {
    let mut slices = Slices {
        bytes: vec![BYTE; BESIDE + bytes],
        indices: vec![INDEX; BESIDE + indices],
        start: BESIDE,
    };
    slices.bytes[BESIDE..][..record.bytes.len()].copy_from_slice(&record.bytes);
    slices.indices[BESIDE..][..record.indices.len()].copy_from_slice(&record.indices);
    slices
}

/// The record that a description finds there; all else is as it was.
pub fn found(description: FlatDescription, slices: &Slices) -> Record {
    let count = description.count as usize;
    let used = count * size_of(description);
    let (before, bytes) = slices.bytes.split_at(slices.start);
    let (bytes, behind) = bytes.split_at(used);
    assert!(before.iter().chain(behind).all(|byte| *byte == BYTE));
    let (before, indices) = slices.indices.split_at(slices.start);
    let (indices, behind) = indices.split_at(count);
    assert!(before.iter().chain(behind).all(|index| *index == INDEX));
    Record {
        description,
        bytes: bytes.to_vec(),
        indices: indices.to_vec(),
    }
}

impl Record {
    /// Slices that hold the record and nothing behind it.
    pub fn alone(&self) -> Slices {
        lent(self, self.bytes.len(), self.indices.len())
    }

    /// The number of Read, the own set, and the part that holds the levels.
    pub fn read(&self, entry: u32) -> (u32, u32, Vec<u8>) {
        let slices = self.alone();
        let read = raw::read(self.description, &slices.bytes, slices.start, entry);
        let part = slices.bytes[read.start..][..read.length].to_vec();
        assert!(read.number != 0 || read.kind == self.description.kind);
        (read.number, read.set, part)
    }

    /// The number of Text, and the slice for the characters.
    pub fn text(&self, entry: u32, room: usize) -> (u32, String) {
        let slices = self.alone();
        let mut out = vec![b'.'; room];
        let number = raw::text(
            self.description,
            &slices.bytes,
            slices.start,
            entry,
            &mut out,
        );
        (number, String::from_utf8(out).expect("letters and dots"))
    }

    pub fn string(&self, entry: u32) -> String {
        let (number, text) = self.text(entry, self.description.width as usize);
        assert_eq!(number, 0);
        text
    }

    /// The number of a call of Numbers, and the value.
    pub fn number(&self, entry: u32, form: &str) -> (u32, i128) {
        let (slices, flat) = (self.alone(), self.description);
        let (bytes, start) = (&slices.bytes, slices.start);
        let plain = |answer: raw::FlatNumber| (answer.number, i128::from(answer.value));
        match form {
            "unsigned" => plain(raw::unsigned(flat, bytes, start, entry)),
            "signed" => {
                let answer = raw::signed(flat, bytes, start, entry);
                (answer.number, answer.value.into())
            }
            "decimal" => plain(raw::decimal(flat, bytes, start, entry)),
            _ => panic!("no form: {form}"),
        }
    }

    pub fn equals(&self, other: &Record) -> raw::FlatEqual {
        let (a, b) = (self.alone(), other.alone());
        raw::compare(flat(self.description, &a), flat(other.description, &b))
    }
}

fn flat(description: FlatDescription, slices: &Slices) -> FlatRecord<'_> {
    FlatRecord {
        description,
        bytes: &slices.bytes,
        byte_start: slices.start,
        indices: &slices.indices,
        index_start: slices.start,
    }
}
