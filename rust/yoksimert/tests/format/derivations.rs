//! Add a piece, Derive and its steps.

use yoksimert::raw::{self, FlatDerivation, FlatInput, FlatInputs, FlatJoined, FlatMade};

use crate::record::{Record, found, lent, record};
use crate::table::{NOTHING, bytes_shown, listed, number, quoted, set_named, span, spans};
use crate::{Replay, Shown};

/// A derivation with its names and pieces.
#[derive(Clone, PartialEq, Debug)]
pub struct Pieces {
    numbers: FlatDerivation,
    names: [u32; 8],
    pieces: [u64; 64],
}

/// `9[7:4]`, the name first
fn stretch(text: &str) -> (&str, u32, u32) {
    let (name, bits) = text.split_once('[').expect("a name and bits");
    let (msb, lsb) = bits
        .trim_end_matches(']')
        .split_once(':')
        .expect("two bits");
    (name, number(msb), number(lsb))
}

impl Pieces {
    pub fn new() -> Self {
        Self {
            numbers: FlatDerivation::default(),
            names: [0; 8],
            pieces: [0; 64],
        }
    }

    fn joined(&mut self, left: bool, name: u32, msb: u32, lsb: u32) -> FlatJoined {
        let (names, pieces) = (&mut self.names, &mut self.pieces);
        match left {
            true => raw::concat_left(self.numbers, names, pieces, name, msb, lsb),
            false => raw::concat_right(self.numbers, names, pieces, name, msb, lsb),
        }
    }

    fn joined_full(&mut self, left: bool, name: u32, width: u32) -> FlatJoined {
        let (names, pieces) = (&mut self.names, &mut self.pieces);
        match left {
            true => raw::concat_left_full(self.numbers, names, pieces, name, width),
            false => raw::concat_right_full(self.numbers, names, pieces, name, width),
        }
    }

    /// `right 9[7:4]` or `left 4, all 2`; the answer is the number.
    fn add(&mut self, side: &str, piece: &str) -> u32 {
        let (before, left) = (self.clone(), side == "left");
        let joined = if let Some((name, width)) = piece.split_once(", all ") {
            self.joined_full(left, number(name), number(width))
        } else {
            let (name, msb, lsb) = stretch(piece);
            self.joined(left, number(name), msb, lsb)
        };
        self.numbers = joined.next;
        assert!(joined.number == 0 || *self == before, "{self:?}");
        joined.number
    }

    fn call(&mut self, call: &str) -> (u32, Shown) {
        let (verb, rest) = call.split_once(' ').expect("a verb and the rest");
        if let Some(width) = rest.strip_prefix("width ") {
            self.numbers.width = number(width);
            return (0, Vec::new());
        }
        let number = self.add(verb, rest);
        (number, vec![("Add a piece", number)])
    }
}

fn spelled(piece: u64) -> String {
    let (input, width, lsb) = (piece >> 48, piece >> 32 & 0xffff, piece & 0xffff_ffff);
    format!("{input}[{}:{lsb}]", lsb + width - 1)
}

fn packed(piece: u64) -> String {
    let (input, width, lsb) = (piece >> 48, piece >> 32 & 0xffff, piece & 0xffff_ffff);
    format!("{input:04x}_{width:04x}_{lsb:08x}")
}

/// call, number, width, names, pieces, packed
impl Replay for Pieces {
    fn row(&mut self, cells: &[String]) -> (Vec<String>, Shown) {
        let (number, shown) = self.call(span(&cells[0]));
        let pieces = &self.pieces[..self.numbers.piece_count as usize];
        let row = vec![
            cells[0].clone(),
            number.to_string(),
            self.numbers.width.to_string(),
            listed(&self.names[..self.numbers.input_count as usize]),
            quoted(pieces.iter().copied().map(spelled)),
            quoted(pieces.iter().copied().map(packed)),
        ];
        (row, shown)
    }
}

/// The inputs one behind another in two slices.
struct Inputs {
    places: FlatInputs,
    bytes: Vec<u8>,
    indices: Vec<u32>,
}

fn together(records: &[Record]) -> Inputs {
    let unused = FlatInput {
        description: record("event: empty").description,
        byte_start: usize::MAX,
        index_start: usize::MAX,
    };
    let mut all = Inputs {
        places: FlatInputs {
            count: records.len() as u32,
            inputs: [unused; 8],
        },
        bytes: vec![0xee],
        indices: vec![0xeeee],
    };
    for (place, record) in all.places.inputs.iter_mut().zip(records) {
        *place = FlatInput {
            description: record.description,
            byte_start: all.bytes.len(),
            index_start: all.indices.len(),
        };
        all.bytes.extend(&record.bytes);
        all.indices.extend(&record.indices);
    }
    all
}

fn derive(records: &[Record], pieces: &[&str], room: (usize, usize)) -> (FlatMade, Record) {
    let mut derivation = Pieces::new();
    for piece in pieces {
        let (letter, bits) = piece.split_at(1);
        let named = format!("{}{bits}", letter.as_bytes()[0]);
        assert_eq!(derivation.add("right", &named), 0, "{piece}");
    }
    let inputs = together(records);
    let mut out = lent(&record("event: empty"), room.0, room.1);
    let start = out.start;
    let made = raw::derive(
        derivation.numbers,
        &derivation.names,
        &derivation.pieces,
        inputs.places,
        &inputs.bytes,
        &inputs.indices,
        &mut out.bytes[start..],
        &mut out.indices[start..],
    );
    let empty = record("event: empty").description;
    let description = if made.number == 0 {
        made.description
    } else {
        empty
    };
    (made, found(description, &out))
}

/// inputs, pieces, lent, number, largest set, indices, bytes
pub struct Deriving;

impl Replay for Deriving {
    fn row(&mut self, cells: &[String]) -> (Vec<String>, Shown) {
        let records: Vec<_> = spans(&cells[0]).into_iter().map(record).collect();
        let (bytes, indices) = cells[2].split_once(", ").expect("two lengths");
        let room = (number(bytes), number(indices));
        let (made, left) = derive(&records, &spans(&cells[1]), room);
        let mut row = cells.to_vec();
        row[3] = made.number.to_string();
        row[4] = match made.number {
            0 => set_named(made.description.set),
            _ => NOTHING.to_string(),
        };
        row[5] = listed(&left.indices);
        row[6] = bytes_shown(&left.bytes);
        (row, vec![("Derive", made.number)])
    }
}

/// A walk over inputs of which bit 0 is picked, beside the record that Derive makes of them.
pub struct Stepping {
    inputs: Vec<Record>,
    begun: Vec<u32>,
    derived: Record,
    kept: u32,
    last: (String, u32),
}

impl Stepping {
    pub fn new(inputs: Vec<Record>) -> Self {
        let picked = &["a[0:0]", "b[0:0]"][..inputs.len()];
        let (made, derived) = derive(&inputs, picked, (64, 64));
        assert_eq!(made.number, 0);
        Self {
            begun: vec![0; inputs.len()],
            inputs,
            derived,
            kept: 0,
            last: (String::new(), 0),
        }
    }

    fn next(&self, input: usize) -> Option<u32> {
        let (record, begun) = (&self.inputs[input], self.begun[input]);
        record.indices.get(begun as usize).copied()
    }

    fn advance(&mut self) -> u32 {
        let all = 0..self.inputs.len();
        let index = all.clone().filter_map(|input| self.next(input)).min();
        for input in all {
            self.begun[input] += u32::from(self.next(input) == index);
        }
        index.expect("an input has a next entry")
    }

    /// The entry of a step, or that it is dropped.
    fn entry(&mut self, index: u32, string: String, set: u32) -> String {
        let step = (string, set);
        if self.kept > 0 && step == self.last {
            return "dropped".to_string();
        }
        let (kept, derived) = (self.kept, &self.derived);
        assert_eq!(derived.indices[kept as usize], index);
        assert_eq!((derived.string(kept), derived.read(kept).1), step);
        let size = derived.bytes.len() / derived.indices.len();
        (self.last, self.kept) = (step, kept + 1);
        bytes_shown(&derived.bytes[kept as usize * size..][..size])
    }

    pub fn is_done(&self) -> bool {
        let ended = (0..self.inputs.len()).all(|input| self.next(input).is_none());
        ended && self.kept == self.derived.description.count
    }
}

/// index, what each input shows with its own set, string, set, entry
impl Replay for Stepping {
    fn row(&mut self, _: &[String]) -> (Vec<String>, Shown) {
        let index = self.advance();
        let (mut row, mut string, mut set) = (vec![index.to_string()], String::new(), 0);
        for (record, begun) in self.inputs.iter().zip(&self.begun) {
            let (shown, own) = (record.string(begun - 1), record.read(begun - 1).1);
            row.extend([format!("`{shown}`"), set_named(own)]);
            string.extend(shown.chars().last());
            set = set.max(own);
        }
        row.extend([format!("`{string}`"), set_named(set)]);
        row.push(self.entry(index, string, set));
        (row, Vec::new())
    }
}
