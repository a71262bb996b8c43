//! Every refusal of every operation, and that its numbers are tried in the order written.

use oracle::{
    Change, Derivation, Description, Encoding, MAXIMUM, Refusal, Side, States, add_piece, compare,
    derive, empty_derivation, fresh, fresh_real, look_up, text,
};

use crate::derivations::{by_hand, packed};
use crate::support::{Recorder, bit_vector, derivation, derive_into, real, shared, string};

fn refused<T>(number: u8) -> Result<T, Refusal> {
    Err(Refusal(number))
}

/// Records of which number 2 holds, whichever slices it is tried on.
fn spoilt_bytes() -> Vec<Recorder> {
    let past_the_end = |description, bytes: &[u8]| {
        let mut record = Recorder::with(description, bytes, &[]);
        record.byte_start += 1;
        record
    };
    let event = Description::empty(Encoding::Event);
    let mut far = Recorder::with(bit_vector(1, States::Two, 1), &[0], &[0]);
    far.byte_start = usize::MAX;
    vec![
        Recorder::with(bit_vector(0, States::Two, 0), &[], &[]),
        Recorder::with(bit_vector(4_097, States::Two, 0), &[], &[]),
        Recorder::with(bit_vector(u32::MAX, States::Nine, u32::MAX), &[], &[]),
        Recorder::with(bit_vector(4, States::Four, 1), &[0], &[0]),
        Recorder::with(Description::of(Encoding::Real, &[0]), &[0; 7], &[0]),
        past_the_end(bit_vector(1, States::Two, 0), &[]),
        past_the_end(event, &[]),
        past_the_end(fresh_real(), &[]),
        far,
    ]
}

/// Records of which number 2 holds for their indices alone.
fn spoilt_indices() -> Vec<Recorder> {
    let mut far = Recorder::with(bit_vector(1, States::Two, 0), &[], &[]);
    far.index_start = usize::MAX;
    let event = Description::counting(Encoding::Event, 1);
    vec![
        Recorder::with(bit_vector(1, States::Two, 1), &[0], &[]),
        Recorder::with(event, &[], &[]),
        far,
    ]
}

/// An event record of one entry above the maximum, over slices that hold it.
fn above_the_maximum() -> Recorder {
    let indices = vec![0; MAXIMUM as usize + 1];
    Recorder::with(Description::of(Encoding::Event, &indices), &[], &indices)
}

fn good() -> Recorder {
    Recorder::empty(fresh(1).unwrap(), 1, 1).run(&["1"])
}

#[test]
fn fresh_refuses_1() {
    assert_eq!(fresh(u32::MAX), refused(1));
    assert_eq!(fresh(0).map(|d| d.encoding), Ok(Encoding::Event));
    assert_eq!(fresh(4_096), Ok(bit_vector(4_096, States::Two, 0)));
}

#[test]
fn add_a_change_refuses_2_first() {
    let spoilt = [spoilt_bytes(), spoilt_indices(), vec![above_the_maximum()]].concat();
    for mut record in spoilt {
        assert_eq!(record.add(0, &string("long and foreign")), refused(2));
        assert_eq!(record.add(0, &real(0.0)), refused(2));
    }
}

#[test]
fn add_a_change_refuses_3_before_the_length() {
    let mut reals = Recorder::empty(fresh_real(), 8, 1);
    assert_eq!(reals.add(0, &string("1")), refused(3));
    assert_eq!(reals.add(0, &string("")), refused(3));
    let mut bits = Recorder::empty(fresh(1).unwrap(), 1, 1);
    assert_eq!(bits.add(0, &real(1.0)), refused(3));
    let mut events = Recorder::empty(fresh(0).unwrap(), 0, 1);
    assert_eq!(events.add(0, &real(1.0)), refused(3));
}

#[test]
fn add_a_change_refuses_3_before_the_index_and_the_room() {
    let mut bits = good();
    bits.indices[bits.index_start] = 9;
    assert_eq!(bits.add(0, &real(1.0)), refused(3));
    assert_eq!(
        Recorder::empty(fresh_real(), 0, 0).add(0, &string("1")),
        refused(3)
    );
}

#[test]
fn add_a_change_refuses_4_before_5() {
    let mut bits = Recorder::empty(fresh(1).unwrap(), 1, 1);
    assert_eq!(bits.add(0, &string("")), refused(4));
    assert_eq!(bits.add(0, &string("??")), refused(4));
    assert_eq!(bits.add(0, &string("?")), refused(5));
    let mut events = Recorder::empty(fresh(0).unwrap(), 0, 1);
    assert_eq!(events.add(0, &string("11")), refused(4));
}

#[test]
fn add_a_change_refuses_5_before_6_before_7() {
    let mut bits = Recorder::empty(fresh(1).unwrap(), 1, 1);
    assert_eq!(bits.add(9, &string("1")), Ok(()));
    assert_eq!(bits.add(8, &string("?")), refused(5));
    assert_eq!(bits.add(8, &string("0")), refused(6));
    assert_eq!(bits.add(8, &string("1")), refused(6));
    assert_eq!(bits.add(9, &string("0")), refused(7));
    assert_eq!(bits.add(9, &string("1")), Ok(()));
}

#[test]
fn number_6_holds_of_reals_and_events_too() {
    let mut reals = Recorder::empty(fresh_real(), 16, 2);
    assert_eq!(reals.add(9, &real(1.0)), Ok(()));
    assert_eq!(reals.add(8, &real(1.0)), refused(6));
    let mut events = Recorder::empty(fresh(0).unwrap(), 0, 2);
    assert_eq!(events.add(9, &string("")), Ok(()));
    assert_eq!(events.add(8, &string("")), refused(6));
}

#[test]
fn add_a_change_refuses_7_for_each_slice() {
    let fresh = fresh(1).unwrap();
    assert_eq!(
        Recorder::empty(fresh, 0, 1).add(0, &string("1")),
        refused(7)
    );
    assert_eq!(
        Recorder::empty(fresh, 1, 0).add(0, &string("1")),
        refused(7)
    );
    assert_eq!(
        Recorder::empty(fresh_real(), 7, 1).add(0, &real(1.0)),
        refused(7)
    );
    assert_eq!(
        Recorder::empty(fresh_real(), 8, 1).add(0, &real(1.0)),
        Ok(())
    );
}

#[test]
fn add_a_change_refuses_7_above_the_maximum() {
    let indices = vec![4; MAXIMUM as usize - 1];
    let full = Description::of(Encoding::Event, &indices);
    let mut record = Recorder::with(full, &[], &indices).with_room(0, 2);
    assert_eq!(record.add(4, &string("")), Ok(()));
    assert_eq!(record.description.count, MAXIMUM);
    assert_eq!(record.add(4, &string("")), refused(7));
}

#[test]
fn a_repeat_at_the_maximum_is_dropped() {
    let full = bit_vector(1, States::Two, MAXIMUM);
    let room = vec![1; MAXIMUM as usize];
    let mut record = Recorder::with(full, &room, &vec![0; room.len()]).with_room(1, 1);
    assert_eq!(record.add(0, &string("1")), Ok(()));
    assert_eq!(record.description, full);
    assert_eq!(record.add(0, &string("0")), refused(7));
}

#[test]
fn reading_refuses_2_and_then_8() {
    for record in [spoilt_bytes(), vec![above_the_maximum()]].concat() {
        assert_eq!(record.read(u32::MAX), refused(2));
    }
    for record in spoilt_indices() {
        assert_ne!(record.read(0), refused(2));
    }
    let record = Recorder::with(bit_vector(1, States::Four, 0), &[0xC0], &[0]);
    assert_eq!(record.read(0), refused(8));
    assert_eq!(good().read(1), refused(8));
    assert_eq!(Recorder::empty(fresh_real(), 8, 1).read(0), refused(8));
    assert_eq!(Recorder::empty(fresh(0).unwrap(), 0, 1).read(0), refused(8));
}

#[test]
fn reading_refuses_9_for_mark_3_or_above_the_largest_set() {
    for width in [1, 2, 3] {
        let read = |mark: u8, states| {
            let entry = [mark << 6, 0];
            Recorder::with(bit_vector(width, states, 1), &entry, &[0])
                .read(0)
                .map(|e| e.states)
        };
        assert_eq!(read(3, States::Nine), refused(9));
        assert_eq!(read(3, States::Four), refused(9));
        assert_eq!(read(2, States::Four), refused(9));
        assert_eq!(read(2, States::Nine), Ok(States::Nine));
        assert_eq!(read(1, States::Nine), Ok(States::Four));
        assert_eq!(read(3, States::Two), Ok(States::Two));
    }
}

#[test]
fn text_refuses_2_and_3_and_8_in_this_order() {
    for record in [spoilt_bytes(), vec![above_the_maximum()]].concat() {
        assert_eq!(record.text(u32::MAX), refused(2));
    }
    assert_eq!(Recorder::empty(fresh_real(), 8, 1).text(0), refused(3));
    assert_eq!(Recorder::empty(fresh(0).unwrap(), 0, 1).text(0), refused(3));
    assert_eq!(good().text(1), refused(8));
}

#[test]
fn text_refuses_8_and_9_and_10_and_7_in_this_order() {
    let nine = bit_vector(2, States::Nine, 1);
    let into = |entry: &[u8], k, room: usize| {
        let mut out = vec![0xA5; room];
        let answer = text(nine, entry, 0, k, &mut out);
        assert!(answer.is_ok() || out == vec![0xA5; room]);
        answer
    };
    assert_eq!(into(&[0xC0, 0x99], 1, 0), refused(8));
    assert_eq!(into(&[0xC0, 0x99], 0, 0), refused(9));
    for code in 9..=15 {
        assert_eq!(into(&[0x80, code], 0, 1), refused(10));
        assert_eq!(into(&[0x80, code << 4], 0, 2), refused(10));
    }
    assert_eq!(into(&[0x80, 0x88], 0, 1), refused(7));
    assert_eq!(into(&[0x80, 0x88], 0, 2), Ok(()));
    assert_eq!(into(&[0x40, 0x99], 0, 2), Ok(()));
}

#[test]
fn compare_refuses_2_first() {
    let nine = bit_vector(1, States::Nine, 1);
    let bad = Recorder::with(nine, &[0xC0], &[0]);
    let spoilt = [spoilt_bytes(), spoilt_indices(), vec![above_the_maximum()]].concat();
    for record in spoilt {
        assert_eq!(compare(&record.record(), &bad.record()), refused(2));
        assert_eq!(compare(&bad.record(), &record.record()), refused(2));
    }
    assert_eq!(compare(&bad.record(), &bad.record()), refused(9));
}

#[test]
fn look_up_refuses_2_before_11() {
    let mut indices = vec![1; MAXIMUM as usize];
    assert_eq!(look_up(&indices, 0), Ok(None));
    indices.push(0);
    assert_eq!(look_up(&indices, 0), refused(2));
    assert_eq!(look_up(&indices[1..], 0), refused(11));
    assert_eq!(look_up(&[1, 0], 0), refused(11));
    assert_eq!(look_up(&[5, 9, 8], 4), refused(11));
}

/// Derivations of which number 14 holds.
fn spoilt_derivations() -> Vec<Derivation> {
    let piece = packed(0, 1, 0);
    let with = |alter: fn(&mut Derivation)| {
        let mut d = by_hand(&[1], &[packed(0, 1, 0)]);
        alter(&mut d);
        d
    };
    let halves = packed(0, 2_048, 0);
    vec![
        with(|d| d.piece_count = 65),
        with(|d| d.piece_count = u32::MAX),
        with(|d| d.input_count = 9),
        with(|d| d.width = 2),
        with(|d| d.width = 0),
        by_hand(&[1], &[piece, packed(0, 0, 0)]),
        by_hand(&[1], &[packed(1, 1, 0)]),
        by_hand(&[], &[piece]),
        by_hand(&[1], &[packed(0, 1, 4_096)]),
        by_hand(&[1], &[packed(0, 2, 4_095)]),
        by_hand(&[1], &[halves, piece, halves]),
    ]
}

#[test]
fn add_a_piece_refuses_14_before_12() {
    for d in spoilt_derivations() {
        for side in [Side::Left, Side::Right] {
            assert_eq!(add_piece(&d, side, 1, 0, 1), refused(14));
        }
    }
}

#[test]
fn add_a_piece_refuses_12_before_13() {
    let names = [1, 2, 3, 4, 5, 6, 7, 8];
    let full = by_hand(&names, &[packed(0, 4_096, 0)]);
    for (msb, lsb) in [(0, 1), (4_096, 4_096), (u32::MAX, 0), (0, u32::MAX)] {
        assert_eq!(add_piece(&full, Side::Left, 9, msb, lsb), refused(12));
    }
    assert_eq!(add_piece(&full, Side::Left, 9, 0, 0), refused(13));
}

#[test]
fn add_a_piece_refuses_13_for_each_limit() {
    let names = by_hand(&[1, 2, 3, 4, 5, 6, 7, 8], &[packed(0, 1, 0)]);
    assert_eq!(add_piece(&names, Side::Left, 9, 0, 0), refused(13));
    assert!(add_piece(&names, Side::Left, 8, 0, 0).is_ok());
    let pieces = by_hand(&[1], &[packed(0, 1, 0); 64]);
    assert_eq!(add_piece(&pieces, Side::Left, 1, 0, 0), refused(13));
    assert!(add_piece(&pieces, Side::Left, 1, 1, 1).is_ok());
    let width = by_hand(&[1], &[packed(0, 4_095, 0)]);
    assert_eq!(add_piece(&width, Side::Right, 1, 1, 0), refused(13));
    assert!(add_piece(&width, Side::Left, 1, 4_095, 4_095).is_ok());
}

/// Bit 0 of an input.
fn bit_0() -> Derivation {
    derivation(&[(1, 0, 0)])
}

/// The number that Derive gives with outputs of one byte and one index.
fn derive_refuses(d: &Derivation, records: &[&Recorder]) -> Option<u8> {
    derive_into(d, records, 1, 1).err().map(|refusal| refusal.0)
}

#[test]
fn derive_refuses_2_before_14() {
    let good = good();
    let spoilt = [spoilt_bytes(), spoilt_indices(), vec![above_the_maximum()]].concat();
    for record in spoilt {
        assert_eq!(derive_refuses(&empty_derivation(), &[&record]), Some(2));
    }
    let mut spoilt = Recorder::empty(fresh(1).unwrap(), 0, 0);
    spoilt.byte_start = 1_000;
    let reals = Recorder::empty(fresh_real(), 0, 0);
    assert_eq!(derive_refuses(&bit_0(), &[&reals, &good, &spoilt]), Some(2));
}

#[test]
fn derive_refuses_14_for_the_derivation() {
    let good = good();
    for d in spoilt_derivations() {
        assert_eq!(derive_refuses(&d, &[&good]), Some(14));
    }
    assert_eq!(derive_refuses(&empty_derivation(), &[]), Some(14));
    assert_eq!(derive_refuses(&by_hand(&[1], &[]), &[&good]), Some(14));
}

#[test]
fn derive_refuses_14_for_the_records() {
    let good = good();
    assert_eq!(derive_refuses(&bit_0(), &[]), Some(14));
    assert_eq!(derive_refuses(&bit_0(), &[&good, &good]), Some(14));
    assert_eq!(derive_refuses(&bit_0(), &[&good; 9]), Some(14));
    let unnamed = by_hand(&[1, 2], &[packed(0, 1, 0)]);
    for record in [fresh_real(), fresh(0).unwrap()].map(|d| Recorder::empty(d, 0, 0)) {
        assert_eq!(derive_refuses(&bit_0(), &[&record]), Some(14));
        assert_eq!(derive_refuses(&unnamed, &[&good, &record]), Some(14));
    }
    assert_eq!(
        derive_refuses(&derivation(&[(1, 1, 1)]), &[&good]),
        Some(14)
    );
    assert_eq!(
        derive_refuses(&derivation(&[(1, 1, 0)]), &[&good]),
        Some(14)
    );
}

#[test]
fn derive_refuses_14_before_15() {
    let empty = Recorder::empty(fresh(1).unwrap(), 0, 0);
    let two_bits = derivation(&[(1, 0, 0), (2, 1, 1)]);
    assert_eq!(derive_refuses(&two_bits, &[&empty, &good()]), Some(14));
    assert_eq!(derive_refuses(&bit_0(), &[&empty]), Some(15));
    let late = Recorder::with(bit_vector(1, States::Two, 1), &[0], &[1]);
    assert_eq!(derive_refuses(&bit_0(), &[&late]), Some(15));
}

#[test]
fn derive_tries_15_then_11_then_9_over_all_inputs() {
    let nine = |bytes: &[u8], indices: &[u32]| {
        Recorder::with(
            bit_vector(1, States::Nine, bytes.len() as u32),
            bytes,
            indices,
        )
    };
    let late = nine(&[0], &[1]);
    let falling = nine(&[0, 1, 0], &[0, 5, 3]);
    let bad_mark = nine(&[0xC0], &[0]);
    let bad_code = nine(&[0x8F, 0x00], &[0, 1]);
    let full = nine(&[0x00, 0x01], &[0, 1]);
    let d = derivation(&[(1, 0, 0), (2, 0, 0)]);
    assert_eq!(derive_refuses(&d, &[&falling, &late]), Some(15));
    assert_eq!(derive_refuses(&d, &[&bad_mark, &falling]), Some(11));
    assert_eq!(derive_refuses(&d, &[&bad_code, &bad_mark]), Some(9));
    assert_eq!(derive_refuses(&d, &[&full, &bad_code]), Some(10));
    assert_eq!(derive_refuses(&d, &[&full, &full]), Some(7));
}

#[test]
fn derive_tries_9_and_10_in_every_entry() {
    let nine = |last| Recorder::with(bit_vector(1, States::Nine, 2), &[0x00, last], &[0, 0]);
    assert_eq!(derive_refuses(&bit_0(), &[&nine(0xC0)]), Some(9));
    assert_eq!(derive_refuses(&bit_0(), &[&nine(0x89)]), Some(10));
    let four = Recorder::with(bit_vector(1, States::Four, 1), &[0x84], &[0]);
    let zero = Recorder::with(bit_vector(1, States::Nine, 1), &[0x00], &[0]);
    let unnamed = by_hand(&[1, 2], &[packed(1, 1, 0)]);
    assert_eq!(derive_refuses(&unnamed, &[&four, &zero]), Some(9));
}

#[test]
fn derive_refuses_7_for_each_slice() {
    let input = Recorder::empty(fresh(4).unwrap(), 6, 3).run(&["0000", "x000", "0000"]);
    let d = derivation(&[(1, 3, 0)]);
    assert_eq!(derive_into(&d, &[&input], 5, 3).err(), Some(Refusal(7)));
    assert_eq!(derive_into(&d, &[&input], 6, 2).err(), Some(Refusal(7)));
    let derived = derive_into(&d, &[&input], 6, 3).unwrap();
    assert_eq!(derived.used_bytes(), [0, 0, 0x40, 0x80, 0, 0]);
}

/// A width-1 record that changes at each of these indices.
fn alternating(indices: Vec<u32>) -> Recorder {
    let bytes: Vec<u8> = (0..indices.len()).map(|k| (k % 2) as u8).collect();
    Recorder::with(
        bit_vector(1, States::Two, indices.len() as u32),
        &bytes,
        &indices,
    )
}

#[test]
fn derive_refuses_7_above_the_maximum() {
    let half = MAXIMUM / 2;
    let d = derivation(&[(1, 0, 0), (2, 0, 0)]);
    let even = alternating((0..=half).map(|k| 2 * k).collect());
    for (last, count) in [(2 * half - 3, Some(MAXIMUM)), (2 * half - 1, None)] {
        let odd = alternating([0].into_iter().chain((1..=last).step_by(2)).collect());
        let (inputs, bytes, indices) = shared(&[&even, &odd]);
        let mut out_bytes = vec![7; MAXIMUM as usize + 1];
        let mut out_indices = vec![7; MAXIMUM as usize + 1];
        let answer = derive(
            &d,
            &inputs,
            &bytes,
            &indices,
            &mut out_bytes,
            &mut out_indices,
        );
        let expected = count
            .ok_or(Refusal(7))
            .map(|count| bit_vector(2, States::Two, count));
        assert_eq!(answer, expected);
        assert_eq!(out_bytes.iter().all(|&byte| byte == 7), count.is_none());
    }
}

#[test]
fn a_refused_change_is_no_part_of_a_history() {
    let fed = |index, characters: &str, accepted| oracle::Fed {
        index,
        change: Change::Text(characters.as_bytes().to_vec()),
        accepted,
    };
    let run = [
        fed(1, "x", true),
        fed(2, "X", true),
        fed(3, "?", false),
        fed(4, "-", true),
    ];
    let pairs = oracle::history(&run);
    assert_eq!(pairs, [(1, b"x".to_vec()), (4, b"-".to_vec())]);
    let (description, bytes, indices) = oracle::history_laid_out(1, &pairs);
    assert_eq!(description, bit_vector(1, States::Nine, 2));
    assert_eq!((bytes, indices), (vec![0x42, 0x88], vec![1, 4]));
    assert_eq!(
        oracle::history_laid_out(9, &[]).0,
        bit_vector(9, States::Two, 0)
    );
}
