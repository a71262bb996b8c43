//! Document 01's twelve rows and its edges, and document 02's edges, as calls.

use crate::generate::Receiver;
use crate::operations::add_change::{AddChange, record_left};
use crate::operations::add_piece::AddPiece;
use crate::operations::derive::Derive;
use crate::operations::fresh::Fresh;
use crate::operations::look_up::LookUp;
use crate::operations::number::in_every_form;
use crate::operations::search::Search;
use crate::record::{LentRecord, cut};
use oracle::{Change, Derivation, Description, Encoding, Input, MAX_WIDTH, MAXIMUM, Side, States};
use reference::Used;

/// Makes the calls of all rows, in order, then those of the edges.
pub fn rows_and_edges(to: &mut dyn Receiver) {
    for (width, changes) in runs() {
        run(width, &changes, to);
    }
    for (indices, sought) in [(&[0, 5, 5, 9][..], 6), (&[0, 5, 5, 9], 9), (&[3], 2)] {
        to.call(LookUp {
            indices: indices.to_vec(),
            sought,
        });
    }
    derive_bit_0(to);
    edges(to);
    numbers(to);
}

/// Rows 1 to 8: a width, and strings with their indices.
fn runs() -> Vec<(u32, Vec<(u32, &'static str)>)> {
    vec![
        (1, vec![(0, "1")]),
        (1, vec![(0, "x"), (1, "X")]),
        (3, vec![(0, "x01"), (1, "hz1")]),
        (4, vec![(0, "1010"), (1, "10xz")]),
        (5, vec![(0, "0000x")]),
        (2, vec![(0, "u-")]),
        (1, vec![(5, "0"), (10, "0"), (7, "1"), (6, "0")]),
    ]
}

/// Feeds strings to a fresh record over slices with room for two entries of a width up to 6; what they leave.
pub fn run(width: u32, changes: &[(u32, &str)], to: &mut dyn Receiver) -> Used {
    let made = to.call(Fresh { width }).outcome;
    let description = made.answer.expect("the rows' widths stand");
    let mut used = Used::empty(description);
    let mut record = LentRecord {
        byte_start: 1,
        index_start: 1,
        ..LentRecord::new(description, &[0xa5; 10], &[77; 4])
    };
    for (index, string) in changes {
        let asked = to.call(AddChange {
            record: record.clone(),
            index: *index,
            change: text(string),
        });
        used = record_left(&asked).unwrap_or(used);
        record.description = used.description;
        (record.bytes, record.indices) = (asked.outcome.bytes, asked.outcome.indices);
    }
    used
}

/// Row 12: "w2 `x1` at 0, `01` at 4, slice of bit 0". What it leaves.
pub fn derive_bit_0(to: &mut dyn Receiver) -> Used {
    let input = run(2, &[(0, "x1"), (4, "01")], to);
    let piece = AddPiece {
        derivation: oracle::empty_derivation(),
        side: Side::Left,
        name: 1,
        msb: 0,
        lsb: 0,
    };
    let derivation = to.call(piece).outcome.answer.expect("a piece");
    let outcome = to.call(one_input(derivation, &input)).outcome;
    let description = outcome.answer.expect("a derivation");
    cut(description, &outcome.bytes, &outcome.indices)
}

fn one_input(derivation: Derivation, input: &Used) -> Derive {
    Derive {
        derivation,
        inputs: vec![Input {
            description: input.description,
            byte_start: 0,
            index_start: 0,
        }],
        bytes: input.bytes.clone(),
        indices: input.indices.clone(),
        out_bytes: vec![0xa5; 4],
        out_indices: vec![77; 4],
    }
}

/// "Edges: width 4,096 stands, 4,097 is 1. Row 5's second change fits 4 bytes; with 3 it is 7 and 0A remains.
/// Real 0.0 then -0.0: both kept." And a count above the maximum.
fn edges(to: &mut dyn Receiver) {
    for width in [0, MAX_WIDTH, MAX_WIDTH + 1] {
        to.call(Fresh { width });
    }
    for room in [3, 4] {
        let bytes = &[0x0a, 0xa5, 0xa5, 0xa5][..room];
        add(lent(two_state(4), 1, bytes, &[0, 77]), text("10xz"), to);
    }
    for bits in [0, (-0.0f64).to_bits()] {
        add(
            lent(Encoding::Real, 1, &[0; 16], &[0, 77]),
            Change::Real(bits),
            to,
        );
    }
    add(lent(Encoding::Event, MAXIMUM + 1, &[], &[]), text(""), to);
}

/// "width 1: `1` is -1; width 64 reaches both ends", "a derived entry marked Four but holding only 0 and 1 is a number",
/// and the refusals 16, 17 and 18 "in that order", after a bad mark and a bad code at a width above 64.
fn numbers(to: &mut dyn Receiver) {
    let wide = |mark: u8, last: u8| [&[mark], &[0; 2047][..], &[last]].concat();
    let entries: [(u32, States, &[u8]); 16] = [
        (1, States::Two, &[0x01]),
        (64, States::Two, &[0xff; 8]),
        (64, States::Two, &[0x80, 0, 0, 0, 0, 0, 0, 0]),
        (
            64,
            States::Two,
            &[0x7f, 0xff, 0xff, 0xff, 0xff, 0xff, 0xff, 0xff],
        ),
        (64, States::Two, &[0x99; 8]),
        (1, States::Four, &[0x41]),
        (4, States::Nine, &[0x80, 0x01, 0x01]),
        (65, States::Two, &[1, 0, 0, 0, 0, 0, 0, 0, 0]),
        (68, States::Two, &[0; 9]),
        (5, States::Two, &[0x15]),
        (4, States::Four, &[0x40, 0x02]),
        (8, States::Four, &[0x40, 0x55, 0x02]),
        (8, States::Two, &[0x1a]),
        (4_096, States::Nine, &wide(0xc0, 0x09)),
        (4_096, States::Nine, &wide(0x80, 0x09)),
        (4_096, States::Nine, &wide(0x80, 0x02)),
    ];
    for (width, max_states, bytes) in entries {
        let encoding = Encoding::BitVector { width, max_states };
        in_every_form(&lent(encoding, 1, bytes, &[]), 0, to);
    }
}

/// The maximum of 1,048,576 entries, one below and one above it: too long for stored answers.
pub fn long_edges(to: &mut dyn Receiver) {
    for count in [MAXIMUM - 1, MAXIMUM, MAXIMUM + 1] {
        let indices = vec![1; count as usize + 1];
        let (list, sought) = (indices[1..].to_vec(), 1);
        to.call(Search {
            indices: list.clone(),
            sought,
        });
        to.call(LookUp {
            indices: list,
            sought,
        });
        add(lent(Encoding::Event, count, &[], &indices), text(""), to);
    }
    let places = MAXIMUM as usize + 1;
    for string in ["1", "0", "x"] {
        let full = lent(two_state(1), MAXIMUM, &vec![1; places], &vec![1; places]);
        add(full, text(string), to);
    }
}

fn two_state(width: u32) -> Encoding {
    Encoding::BitVector {
        width,
        max_states: States::Two,
    }
}

fn add(record: LentRecord, change: Change, to: &mut dyn Receiver) {
    to.call(AddChange {
        record,
        index: 1,
        change,
    });
}

fn text(string: &str) -> Change {
    Change::Text(string.as_bytes().to_vec())
}

fn lent(encoding: Encoding, count: u32, bytes: &[u8], indices: &[u32]) -> LentRecord {
    LentRecord::new(Description::counting(encoding, count), bytes, indices)
}
