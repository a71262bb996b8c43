//! The wrappers around wellen: refusals, live and resumed writers, and values that pass through unaltered.
#![cfg(wellen)]

use oracle::{Change, Description, Encoding, Side, States};
use reference::{Record, Refused, Value, Writer, add_change, add_piece};

fn text(string: &str) -> Change {
    Change::Text(string.as_bytes().to_vec())
}

#[test]
fn a_panic_is_a_refusal_and_alters_nothing() {
    let mut writer = Writer::fresh(3);
    writer.add_change(5, &text("x01")).expect("a valid change");
    let before = (
        writer.description(),
        writer.bytes().to_vec(),
        writer.indices().to_vec(),
    );
    let refused = [
        (5, text("x0")),
        (5, text("x02")),
        (4, text("000")),
        (5, Change::Real(0)),
    ];
    for (index, change) in refused {
        assert_eq!(
            writer.add_change(index, &change),
            Err(Refused),
            "{index} {change:?}"
        );
        let after = (
            writer.description(),
            writer.bytes().to_vec(),
            writer.indices().to_vec(),
        );
        assert_eq!(before, after);
    }
    writer.add_change(5, &text("hz1")).expect("a valid change");
    assert_eq!(writer.bytes(), [0x40, 0x21, 0x84, 0x31]);
}

#[test]
fn a_resumed_writer_goes_on_like_a_live_one() {
    let changes = ["0000", "0000", "01x1", "hhhh", "1111"];
    let mut live = Writer::fresh(4);
    let (mut description, mut bytes, mut indices) = (live.description(), Vec::new(), Vec::new());
    for (index, string) in changes.iter().enumerate() {
        live.add_change(index as u32, &text(string))
            .expect("a valid change");
        let next = add_change(description, &bytes, &indices, index as u32, &text(string));
        let next = next.expect("a valid change");
        (description, bytes, indices) = (next.description, next.bytes, next.indices);
    }
    assert_eq!(description, live.description());
    assert_eq!((&bytes[..], &indices[..]), (live.bytes(), live.indices()));
    assert_eq!(indices, [0, 2, 3, 4]);
}

#[test]
fn an_unguarded_change_is_the_same_change() {
    let (mut guarded, mut unguarded) = (Writer::fresh(2), Writer::fresh(2));
    for (index, string) in ["00", "0x", "0X", "-1"].into_iter().enumerate() {
        let added = guarded.add_change(index as u32, &text(string));
        added.expect("a valid change");
        unguarded.add_string_unguarded(index as u32, string.as_bytes());
    }
    assert_eq!(guarded.bytes(), unguarded.bytes());
    assert_eq!(guarded.bytes(), [0x00, 0x00, 0x40, 0x02, 0x80, 0x81]);
}

#[test]
fn a_signalling_nan_keeps_its_bits() {
    let bits = 0x7ff0_0000_0000_0001;
    let mut writer = Writer::fresh_real();
    writer
        .add_change(0, &Change::Real(bits))
        .expect("a valid change");
    let record = writer.finish().expect("a record");
    assert_eq!(record.read(0), Ok(Value::Real(bits)));
    assert_eq!(record.equals(&record), Ok(false));
}

#[test]
fn a_part_is_placed_within_the_used_bytes() {
    let encoding = Encoding::BitVector {
        width: 4,
        max_states: States::Four,
    };
    let description = Description::counting(encoding, 2);
    let record = Record::new(description, &[0x00, 0x0a, 0x40, 0x4b], &[0, 1]).expect("a record");
    let part = Value::BitVector {
        states: States::Four,
        part: 3..4,
    };
    assert_eq!(record.read(1), Ok(part));
    assert_eq!(record.text(1), Ok(Some("10xz".to_string())));
    assert_eq!(record.read(2), Err(Refused));
}

#[test]
fn a_number_is_wellens_own() {
    let mut writer = Writer::fresh(4);
    for (index, string) in ["1010", "10x0"].into_iter().enumerate() {
        let added = writer.add_change(index as u32, &text(string));
        added.expect("a valid change");
    }
    let record = writer.finish().expect("a record");
    assert_eq!(record.unsigned(0), Ok(Some(10)));
    assert_eq!(record.unsigned(1), Ok(None));
    assert_eq!(record.unsigned(2), Err(Refused));
    let reals = Record::new(Description::counting(Encoding::Real, 1), &[0; 8], &[0]);
    assert_eq!(reals.expect("a record").unsigned(0), Ok(None));
}

#[test]
fn wellen_has_no_name_0() {
    let empty = oracle::empty_derivation();
    assert_eq!(add_piece(&empty, Side::Left, 0, 0, 0), Err(Refused));
    let named = add_piece(&empty, Side::Left, u32::MAX, 0, 0).expect("a valid piece");
    assert_eq!(named.inputs, [u32::MAX]);
}
