//! Entries: letters, parts, marks and stray bits, repeats and widening, Compare.

use oracle::{Kind, Refusal, States, compare, fresh, fresh_real};

use crate::support::{Recorder, bit_vector, derivation, derive_into, real, string};

fn compared(a: &Recorder, b: &Recorder) -> Result<bool, Refusal> {
    compare(&a.record(), &b.record())
}

#[test]
fn every_letter_has_its_code() {
    let small = "01xzhuwl-";
    let record = Recorder::empty(fresh(9).unwrap(), 5, 1).run(&[small]);
    assert_eq!(record.used_bytes(), [0x80, 0x12, 0x34, 0x56, 0x78]);
    assert_eq!(record.text(0), Ok(small.to_owned()));
    let capitals = Recorder::empty(fresh(9).unwrap(), 5, 1).run(&["01XZHUWL-"]);
    assert_eq!(capitals.used_bytes(), record.used_bytes());
}

#[test]
fn every_other_byte_is_foreign() {
    for byte in 0..=u8::MAX {
        let mut record = Recorder::empty(fresh(1).unwrap(), 1, 1);
        let known = b"01xzhuwl-XZHUWL".contains(&byte);
        let answer = if known { Ok(()) } else { Err(Refusal(5)) };
        assert_eq!(
            record.add(0, &oracle::Change::Text(vec![byte])),
            answer,
            "{byte}"
        );
    }
}

#[test]
fn marks_and_bits_of_the_sets() {
    let sets = [States::Two, States::Four, States::Nine];
    assert_eq!(sets.map(States::mark), [0, 1, 2]);
    assert_eq!(sets.map(States::bits), [1, 2, 4]);
}

#[test]
fn reading_gives_the_last_bytes_of_the_own_set() {
    let record =
        Recorder::empty(fresh(9).unwrap(), 15, 3).run(&["101010101", "x10000001", "h00000000"]);
    let expected: [(States, &[u8]); 3] = [
        (States::Two, &[0x01, 0x55]),
        (States::Four, &[0x02, 0x40, 0x01]),
        (States::Nine, &[0x84, 0, 0, 0, 0]),
    ];
    for (entry, (states, part)) in (0..).zip(expected) {
        assert_eq!(record.part(entry), part);
        let answer = record.read(entry).unwrap();
        assert_eq!((answer.kind, answer.states), (Kind::BitVector, states));
    }
}

#[test]
fn a_meta_byte_is_not_part_of_the_levels() {
    let record = Recorder::empty(fresh(4).unwrap(), 4, 2).run(&["1010", "10xz"]);
    assert_eq!(record.part(0), [0x0A]);
    assert_eq!(record.part(1), [0x4B]);
    let record = Recorder::empty(fresh(3).unwrap(), 1, 1).run(&["x01"]);
    assert_eq!(record.part(0), [0x61]);
}

#[test]
fn a_repeat_may_raise_the_set_where_nothing_moves() {
    let mut record = Recorder::with(bit_vector(1, States::Two, 1), &[0x42], &[0]);
    assert_eq!(record.add(1, &string("x")), Ok(()));
    assert_eq!(record.description, bit_vector(1, States::Four, 1));
    assert_eq!(record.used_bytes(), [0x42]);
}

#[test]
fn a_repeat_may_raise_the_set_and_move_entries() {
    let record = Recorder::with(bit_vector(3, States::Four, 1), &[0x84], &[0]);
    let mut full = record.clone();
    assert_eq!(full.add(1, &string("00h")), Err(Refusal(7)));
    let mut record = record.with_room(1, 0);
    assert_eq!(record.add(1, &string("00h")), Ok(()));
    assert_eq!(record.description, bit_vector(3, States::Nine, 1));
    assert_eq!(record.used_bytes(), [0x80, 0x04]);
    assert_eq!(record.used_indices(), [0]);
}

#[test]
fn a_repeat_is_judged_by_bytes() {
    let input = Recorder::empty(fresh(3).unwrap(), 2, 2).run(&["x01"]);
    let derived = derive_into(&derivation(&[(0, 1, 0)]), &[&input], 2, 2).unwrap();
    assert_eq!(derived.used_bytes(), [0x41]);
    let mut record = derived;
    assert_eq!(record.add(1, &string("01")), Ok(()));
    assert_eq!(record.used_bytes(), [0x41, 0x01]);
}

#[test]
fn a_repeat_that_raises_no_set_needs_no_room() {
    let mut record = Recorder::empty(fresh(4).unwrap(), 2, 1).run(&["x000"]);
    assert_eq!(record.add(1, &string("X000")), Ok(()));
    assert_eq!(record.add(1, &string("0000")), Err(Refusal(7)));
    assert_eq!(record.description.count, 1);
}

/// Adds a change that raises the set of a one-entry record, and says how the entry stands then.
fn moved(width: u32, states: States, entry: &[u8], characters: &str) -> Vec<u8> {
    let description = bit_vector(width, states, 1);
    let mut record = Recorder::with(description, entry, &[0]).with_room(12, 1);
    assert_eq!(record.add(0, &string(characters)), Ok(()));
    assert_eq!(record.text(1), Ok(characters.to_owned()));
    let used = record.used_bytes();
    used[..used.len() / 2].to_vec()
}

#[test]
fn stray_bits_move_as_they_stand() {
    assert_eq!(moved(4, States::Two, &[0xFA], "x000"), [0x00, 0xFA]);
    assert_eq!(moved(2, States::Two, &[0xFE], "h0"), [0x00, 0xFE]);
    assert_eq!(
        moved(9, States::Two, &[0xFF, 1], "h00000000"),
        [0, 0, 0, 0xFF, 1]
    );
    assert_eq!(
        moved(5, States::Four, &[0xBF, 0xE4], "h0000"),
        [0x80, 0x3F, 0xE4]
    );
}

#[test]
fn bad_marks_move_as_they_stand() {
    assert_eq!(moved(2, States::Four, &[0xFE], "h0"), [0xC0, 0x3E]);
    assert_eq!(moved(3, States::Four, &[0x84], "h00"), [0x80, 0x04]);
    assert_eq!(
        moved(4, States::Four, &[0x7F, 0xE4], "h000"),
        [0x40, 0x00, 0xE4]
    );
    assert_eq!(moved(1, States::Four, &[0xFE], "h"), [0xFE]);
}

#[test]
fn stray_top_bits_become_marks_where_nothing_moves() {
    for (entry, states) in [
        (0xC1, Err(Refusal(9))),
        (0x81, Err(Refusal(9))),
        (0x41, Ok(States::Four)),
    ] {
        let record = Recorder::with(bit_vector(3, States::Two, 1), &[entry], &[0]);
        let mut record = record.with_room(1, 1);
        assert_eq!(record.read(0).map(|entry| entry.states), Ok(States::Two));
        assert_eq!(record.text(0), Ok("001".to_owned()));
        assert_eq!(record.add(0, &string("x00")), Ok(()));
        assert_eq!(record.used_bytes(), [entry, 0x60]);
        assert_eq!(record.read(0).map(|entry| entry.states), states);
    }
}

#[test]
fn stray_top_bits_move_with_the_levels_when_two_is_raised_to_nine_at_once() {
    assert_eq!(moved(3, States::Two, &[0x41], "h00"), [0x00, 0x41]);
    let two = Recorder::with(bit_vector(3, States::Two, 1), &[0x41], &[0]);
    let mut by_four = two.with_room(5, 2);
    assert_eq!(by_four.add(0, &string("x00")), Ok(()));
    assert_eq!(by_four.add(0, &string("h00")), Ok(()));
    assert_eq!(by_four.used_bytes()[..2], [0x40, 0x01]);
}

#[test]
fn equal_bytes_mean_equal_levels_at_one_width_only() {
    let narrow = Recorder::empty(fresh(1).unwrap(), 1, 1).run(&["1"]);
    let wide = Recorder::empty(fresh(2).unwrap(), 1, 1).run(&["01"]);
    assert_eq!(narrow.used_bytes(), wide.used_bytes());
    assert_eq!(compared(&narrow, &wide), Ok(false));
}

#[test]
fn compare_goes_by_text() {
    let four = Recorder::empty(fresh(3).unwrap(), 1, 1).run(&["x01"]);
    let nine = Recorder::with(bit_vector(3, States::Nine, 1), &[0x40, 0x21], &[0]);
    assert_eq!(compared(&four, &nine), Ok(true));
    let stray = Recorder::with(bit_vector(3, States::Two, 1), &[0xF9], &[0]);
    let plain = Recorder::empty(fresh(3).unwrap(), 1, 1).run(&["001"]);
    assert_eq!(compared(&stray, &plain), Ok(true));
    assert_eq!(compared(&four, &plain), Ok(false));
}

#[test]
fn compare_goes_by_index_too() {
    let mut first = Recorder::empty(fresh(1).unwrap(), 1, 1);
    let mut second = first.clone();
    assert_eq!(first.add(3, &string("1")), Ok(()));
    assert_eq!(second.add(4, &string("1")), Ok(()));
    assert_eq!(compared(&first, &second), Ok(false));
    assert_eq!(compared(&first, &first.clone()), Ok(true));
}

#[test]
fn compare_takes_reals_as_floats() {
    let record = |value| {
        let mut record = Recorder::empty(fresh_real(), 8, 1);
        assert_eq!(record.add(0, &real(value)), Ok(()));
        record
    };
    assert_eq!(compared(&record(0.0), &record(-0.0)), Ok(true));
    assert_eq!(compared(&record(1.5), &record(1.5)), Ok(true));
    assert_eq!(compared(&record(1.5), &record(2.5)), Ok(false));
    assert_eq!(compared(&record(f64::NAN), &record(f64::NAN)), Ok(false));
}

#[test]
fn empty_records_agree_whatever_their_kinds() {
    let events = Recorder::empty(fresh(0).unwrap(), 0, 1);
    let reals = Recorder::empty(fresh_real(), 0, 0);
    let bits = Recorder::empty(fresh(7).unwrap(), 0, 0);
    assert_eq!(compared(&events, &reals), Ok(true));
    assert_eq!(compared(&reals, &bits), Ok(true));
    let begun = events.clone().run(&["1"]);
    assert_eq!(compared(&begun, &events), Ok(false));
    assert_eq!(compared(&events, &begun), Ok(false));
}

#[test]
fn records_of_unlike_kind_with_an_entry_each_never_agree() {
    let events = Recorder::empty(fresh(0).unwrap(), 0, 1).run(&["1"]);
    let bits = Recorder::empty(fresh(1).unwrap(), 1, 1).run(&["1"]);
    let mut reals = Recorder::empty(fresh_real(), 8, 1);
    assert_eq!(reals.add(0, &real(1.0)), Ok(()));
    assert_eq!(compared(&events, &events.clone()), Ok(true));
    for (a, b) in [(&events, &bits), (&bits, &reals), (&reals, &events)] {
        assert_eq!(compared(a, b), Ok(false));
        assert_eq!(compared(b, a), Ok(false));
    }
}

#[test]
fn compare_tries_each_pair_before_it_is_compared() {
    let one = |bytes: &[u8], index| Recorder::with(bit_vector(2, States::Nine, 1), bytes, &[index]);
    let good = one(&[0x80, 0x58], 0);
    let bad_mark = one(&[0xC0, 0x00], 0);
    let bad_code = one(&[0x80, 0x90], 5);
    assert_eq!(compared(&bad_mark, &bad_code), Err(Refusal(9)));
    assert_eq!(compared(&bad_code, &bad_mark), Err(Refusal(10)));
    assert_eq!(compared(&good, &bad_mark), Err(Refusal(9)));
    assert_eq!(compared(&good, &bad_code), Err(Refusal(10)));
    let narrow = Recorder::empty(fresh(1).unwrap(), 1, 1).run(&["1"]);
    assert_eq!(compared(&narrow, &bad_code), Err(Refusal(10)));
}

#[test]
fn compare_stops_at_the_first_difference_or_an_end() {
    let nine = bit_vector(1, States::Nine, 2);
    let good = Recorder::with(nine, &[0x00, 0x01], &[0, 1]);
    let other = Recorder::with(nine, &[0x01, 0xC0], &[0, 1]);
    assert_eq!(compared(&good, &other), Ok(false));
    let same = Recorder::with(nine, &[0x00, 0xC0], &[0, 1]);
    assert_eq!(compared(&good, &same), Err(Refusal(9)));
    let short = Recorder::with(bit_vector(1, States::Nine, 1), &[0x00], &[0]);
    assert_eq!(compared(&short, &same), Ok(false));
    assert_eq!(compared(&same, &short), Ok(false));
}
