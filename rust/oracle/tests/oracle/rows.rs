//! Document 01, Twelve rows, and its edges.

use oracle::{Kind, Offset, Refusal, States, fresh, fresh_real, look_up};

use crate::support::{Recorder, derivation, derive_into, real, string};

fn recorder(width: u32) -> Recorder {
    Recorder::empty(fresh(width).unwrap(), 16, 8)
}

#[test]
fn row_1() {
    let record = recorder(1).run(&["1"]);
    assert_eq!(record.used_bytes(), [0x01]);
    assert_eq!(record.max_states(), States::Two);
}

#[test]
fn row_2() {
    let record = recorder(1).run(&["x", "X"]);
    assert_eq!(record.used_bytes(), [0x42]);
    assert_eq!(record.used_indices(), [0]);
}

#[test]
fn rows_3_and_4() {
    let record = recorder(3).run(&["x01"]);
    assert_eq!(record.used_bytes(), [0x61]);
    assert_eq!(record.max_states(), States::Four);
    let record = recorder(3).run(&["x01", "hz1"]);
    assert_eq!(record.used_bytes(), [0x40, 0x21, 0x84, 0x31]);
    assert_eq!(record.max_states(), States::Nine);
    assert_eq!(record.text(0), Ok("x01".to_owned()));
    assert_eq!(record.text(1), Ok("hz1".to_owned()));
}

#[test]
fn row_5() {
    let record = recorder(4).run(&["1010"]);
    assert_eq!(record.used_bytes(), [0x0A]);
    let record = recorder(4).run(&["1010", "10xz"]);
    assert_eq!(record.used_bytes(), [0x00, 0x0A, 0x40, 0x4B]);
}

#[test]
fn row_6() {
    assert_eq!(recorder(5).run(&["0000x"]).used_bytes(), [0x40, 0x02]);
}

#[test]
fn row_7() {
    assert_eq!(recorder(2).run(&["u-"]).used_bytes(), [0x80, 0x58]);
}

#[test]
fn row_8() {
    let mut record = recorder(1);
    for (index, characters) in [(5, "0"), (10, "0"), (7, "1")] {
        assert_eq!(record.add(index, &string(characters)), Ok(()));
    }
    assert_eq!(record.used_indices(), [5, 7]);
    assert_eq!(record.used_bytes(), [0, 1]);
    assert_eq!(record.add(6, &string("0")), Err(Refusal(6)));
    assert_eq!(record.used_indices(), [5, 7]);
}

#[test]
fn row_9() {
    let expected = Offset {
        start: 1,
        elements: 2,
        time_match: false,
        next_index: Some(9),
    };
    assert_eq!(look_up(&[0, 5, 5, 9], 6), Ok(Some(expected)));
}

#[test]
fn row_10() {
    let expected = Offset {
        start: 3,
        elements: 1,
        time_match: true,
        next_index: None,
    };
    assert_eq!(look_up(&[0, 5, 5, 9], 9), Ok(Some(expected)));
}

#[test]
fn row_11() {
    assert_eq!(look_up(&[3], 2), Ok(None));
    assert_eq!(look_up(&[], 2), Ok(None));
}

#[test]
fn row_12() {
    let mut input = recorder(2);
    assert_eq!(input.add(0, &string("x1")), Ok(()));
    assert_eq!(input.add(4, &string("01")), Ok(()));
    let derived = derive_into(&derivation(&[(0, 0, 0)]), &[&input], 6, 6).unwrap();
    assert_eq!(derived.used_bytes(), [0x41, 0x01]);
    assert_eq!(derived.used_indices(), [0, 4]);
    assert_eq!(derived.max_states(), States::Four);
}

#[test]
fn width_4096_stands() {
    assert_eq!(fresh(4_097), Err(Refusal(1)));
    let widest = Recorder::empty(fresh(4_096).unwrap(), 2_049, 1).run(&[&"-".repeat(4_096)]);
    assert_eq!(widest.used_bytes().len(), 2_049);
    assert_eq!(widest.used_bytes()[0], 0x80);
    assert!(widest.used_bytes()[1..].iter().all(|&byte| byte == 0x88));
    assert_eq!(widest.text(0), Ok("-".repeat(4_096)));
}

#[test]
fn second_change_of_row_5_fits_4_bytes() {
    for (room, answer, used) in [
        (4, Ok(()), &[0x00, 0x0A, 0x40, 0x4B][..]),
        (3, Err(Refusal(7)), &[0x0A]),
    ] {
        let mut record = Recorder::empty(fresh(4).unwrap(), room, 2).run(&["1010"]);
        assert_eq!(record.add(1, &string("10xz")), answer);
        assert_eq!(record.used_bytes(), used);
    }
}

#[test]
fn reals_of_both_zeros_are_kept() {
    let mut record = Recorder::empty(fresh_real(), 16, 2);
    assert_eq!(record.add(0, &real(0.0)), Ok(()));
    assert_eq!(record.add(0, &real(-0.0)), Ok(()));
    assert_eq!(record.add(9, &real(-0.0)), Ok(()));
    assert_eq!(record.used_indices(), [0, 0]);
    assert_eq!(record.used_bytes()[..15], [0; 15]);
    assert_eq!(record.used_bytes()[15], 0x80);
}

#[test]
fn a_real_is_little_endian_and_keeps_its_payload() {
    let mut record = Recorder::empty(fresh_real(), 16, 2);
    let nan = oracle::Change::Real(0x7FF8_0000_0000_0102);
    assert_eq!(record.add(0, &nan), Ok(()));
    assert_eq!(record.add(1, &nan), Ok(()));
    assert_eq!(record.part(0), [0x02, 0x01, 0, 0, 0, 0, 0xF8, 0x7F]);
    let entry = record.read(0).unwrap();
    assert_eq!((entry.kind, entry.states), (Kind::Real, States::Two));
    assert_eq!(record.description.count, 1);
}

#[test]
fn every_event_is_kept_unexamined() {
    let mut record = Recorder::empty(fresh(0).unwrap(), 0, 4);
    for characters in ["", "1", "1", "?"] {
        assert_eq!(record.add(7, &string(characters)), Ok(()));
    }
    assert_eq!(record.used_indices(), [7; 4]);
    let entry = record.read(3).unwrap();
    assert_eq!((entry.kind, entry.states), (Kind::Event, States::Two));
    assert!(entry.part.is_empty());
}
