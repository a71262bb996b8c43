//! Entries read as numbers beside wellen's `u64` of the same entries, and beside Read.

use crate::records::each_entry;
use crate::strings::SETS;
use crate::timing::in_turn;
use oracle::{Description, Encoding, States};
use yoksimert::raw::{self, FlatDescription};
use yoksimert::{DerivedBitVecSignal, Signal, SignalWriter, transform_signal};

const ENTRIES: u32 = 20_000;

/// ns an entry of decimal digits, which every form takes.
pub fn numbers() {
    println!("\nnumbers: ns an entry of levels 0 and 1; wellen has the unsigned ones alone\n");
    println!(
        "| own set | width | unsigned | wellen | wellen / unsigned | read | unsigned / read | signed | decimal |\n|---|---|---|---|---|---|---|---|---|"
    );
    for states in SETS {
        for width in [8, 32, 64] {
            numbers_at(states, width);
        }
    }
}

fn numbers_at(states: States, width: u32) {
    let signal = marked(states, width);
    let (bytes, indices) = (signal.bytes(), signal.time_indices());
    let count = indices.len() as u32;
    let flat = FlatDescription::new(2, width, u32::from(states.mark()), count);
    let encoding = Encoding::BitVector {
        width,
        max_states: states,
    };
    let wellen = reference::Record::new(Description::of(encoding, indices), bytes, indices);
    let wellen = wellen.expect("wellen takes the record");
    for entry in 0..count {
        let (ours, decimal) = (
            raw::unsigned(flat, bytes, 0, entry),
            raw::decimal(flat, bytes, 0, entry),
        );
        assert_eq!((ours.number, decimal.number), (0, 0));
        assert_eq!(wellen.unsigned_unguarded(entry), Some(ours.value));
    }
    let [unsigned, theirs, read, signed, decimal] = in_turn(|| {
        [
            each_entry(count, |entry| raw::unsigned(flat, bytes, 0, entry).value),
            each_entry(count, |entry| wellen.unsigned_unguarded(entry)),
            each_entry(count, |entry| raw::read(flat, bytes, 0, entry).length),
            each_entry(count, |entry| raw::signed(flat, bytes, 0, entry).value),
            each_entry(count, |entry| raw::decimal(flat, bytes, 0, entry).value),
        ]
    });
    println!(
        "| {states:?} | {width} | {unsigned:.1} | {theirs:.1} | {:.1} | {read:.1} | {:.1} | {signed:.1} | {decimal:.1} |",
        theirs / unsigned,
        unsigned / read
    );
}

/// A record of decimal digits whose entries are marked with a set that they don't need: the digits behind a level of that set, which a
/// derivation leaves out.
fn marked(states: States, width: u32) -> Signal {
    let own = match states {
        States::Two => '0',
        States::Four => 'x',
        States::Nine => 'h',
    };
    let mut writer = SignalWriter::new(width + 1).expect("the width stands");
    for index in 0..ENTRIES {
        let levels = format!("{own}{}", digits(index, width));
        writer.add_change(index, &levels).expect("a valid change");
    }
    let slice = DerivedBitVecSignal::new_slice(0, width - 1, 0).expect("the range stands");
    let signal = transform_signal(&slice, &[&writer.finish()]).expect("the record stands");
    let first = signal.get_entry(0).expect("there is an entry").states();
    assert_eq!(first.map(|own| own.mark()), Some(states.mark()));
    signal
}

/// Four levels for each digit, without order.
fn digits(seed: u32, width: u32) -> String {
    let mut state = u64::from(seed);
    let digit = |_| {
        state = state
            .wrapping_mul(6_364_136_223_846_793_005)
            .wrapping_add(1);
        format!("{:04b}", (state >> 33) % 10)
    };
    (0..width / 4).map(digit).collect()
}
