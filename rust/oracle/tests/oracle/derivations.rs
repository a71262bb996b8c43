//! Add a piece, Derive and their readings; Look up.

use oracle::{
    Derivation, Offset, Refusal, Side, States, add_piece, derived_laid_out, derived_list,
    empty_derivation, fresh, look_up,
};

use crate::support::{Recorder, bit_vector, derivation, derive_into, shared, string};

/// A packed piece: input × 2^48 + width × 2^32 + lsb.
pub fn packed(input: u64, width: u64, lsb: u64) -> u64 {
    (input << 48) + (width << 32) + lsb
}

/// A derivation with these names and packed pieces, and ones behind both.
pub fn by_hand(names: &[u32], pieces: &[u64]) -> Derivation {
    let mut d = empty_derivation();
    d.inputs = [u32::MAX; 8];
    d.inputs[..names.len()].copy_from_slice(names);
    d.input_count = names.len() as u32;
    d.pieces = [u64::MAX; 64];
    d.pieces[..pieces.len()].copy_from_slice(pieces);
    d.piece_count = pieces.len() as u32;
    d.width = pieces
        .iter()
        .map(|piece| (piece >> 32) as u32 & 0xFFFF)
        .sum();
    d
}

/// A width-1 record of these characters at these indices.
fn line(entries: &[(u32, &str)]) -> Recorder {
    let mut record = Recorder::empty(fresh(1).unwrap(), entries.len(), entries.len());
    for (index, characters) in entries {
        assert_eq!(record.add(*index, &string(characters)), Ok(()));
    }
    record
}

/// The index and text of each entry.
fn listed(record: &Recorder) -> Vec<(u32, String)> {
    let texts = (0..record.description.count).map(|entry| record.text(entry).unwrap());
    record.used_indices().iter().copied().zip(texts).collect()
}

fn owned(list: &[(u32, &str)]) -> Vec<(u32, String)> {
    list.iter()
        .map(|&(index, text)| (index, text.to_owned()))
        .collect()
}

#[test]
fn the_empty_derivation_is_all_zero() {
    let d = empty_derivation();
    assert_eq!((d.width, d.input_count, d.piece_count), (0, 0, 0));
    assert_eq!((d.inputs, d.pieces), ([0; 8], [0; 64]));
}

#[test]
fn inputs_are_numbered_by_first_naming() {
    let d = derivation(&[(7, 3, 2), (0, 9, 9), (7, 0, 0)]);
    assert_eq!((d.width, d.input_count, d.piece_count), (4, 2, 3));
    assert_eq!(d.inputs[..2], [7, 0]);
    assert_eq!(
        d.pieces[..3],
        [packed(0, 2, 2), packed(1, 1, 9), packed(0, 1, 0)]
    );
    assert_eq!(d.pieces[3..], [0; 61]);
}

#[test]
fn merging_looks_at_the_joined_order_alone() {
    let cases = [
        (Side::Left, 9, 6, vec![packed(0, 6, 4)]),
        (Side::Right, 3, 0, vec![packed(0, 6, 0)]),
        (Side::Left, 3, 0, vec![packed(0, 4, 0), packed(0, 2, 4)]),
        (Side::Right, 9, 6, vec![packed(0, 2, 4), packed(0, 4, 6)]),
        (Side::Left, 9, 7, vec![packed(0, 3, 7), packed(0, 2, 4)]),
        (Side::Left, 5, 5, vec![packed(0, 1, 5), packed(0, 2, 4)]),
    ];
    let start = by_hand(&[1], &[packed(0, 2, 4)]);
    for (side, msb, lsb, pieces) in cases {
        let mut expected = by_hand(&[1], &pieces);
        expected.width = 2 + msb - lsb + 1;
        assert_eq!(add_piece(&start, side, 1, msb, lsb), Ok(expected));
    }
}

#[test]
fn another_input_does_not_merge() {
    let start = by_hand(&[1], &[packed(0, 2, 4)]);
    let expected = by_hand(&[1, 2], &[packed(1, 4, 6), packed(0, 2, 4)]);
    assert_eq!(add_piece(&start, Side::Left, 2, 9, 6), Ok(expected));
}

#[test]
fn a_merge_adds_no_piece_and_counts_for_the_sum() {
    let scattered: Vec<u64> = (0..64).map(|k| packed(0, 1, 4 * k)).collect();
    let d = by_hand(&[1], &scattered);
    assert_eq!(add_piece(&d, Side::Right, 1, 9, 9), Err(Refusal(13)));
    let lowest = 4 * 63;
    let merged = add_piece(&d, Side::Right, 1, lowest - 1, lowest - 2).unwrap();
    assert_eq!((merged.piece_count, merged.width), (64, 66));
    assert_eq!(merged.pieces[63], packed(0, 3, u64::from(lowest) - 2));
    let wide = by_hand(&[1, 2], &[packed(0, 4_095, 0), packed(1, 1, 2)]);
    assert_eq!(add_piece(&wide, Side::Right, 2, 1, 1), Err(Refusal(13)));
}

#[test]
fn of_a_name_held_twice_the_first_counts() {
    let d = by_hand(&[5, 5], &[packed(1, 1, 0)]);
    let expected = by_hand(&[5, 5], &[packed(1, 1, 0), packed(0, 1, 3)]);
    assert_eq!(add_piece(&d, Side::Right, 5, 3, 3), Ok(expected));
    let unmerged = by_hand(&[5, 5], &[packed(0, 1, 1), packed(1, 1, 0)]);
    assert_eq!(add_piece(&d, Side::Left, 5, 1, 1), Ok(unmerged));
}

#[test]
fn lsb_is_a_full_field() {
    for lsb in [4_096, u64::from(u32::MAX)] {
        let d = by_hand(&[5], &[packed(0, 1, lsb)]);
        assert_eq!(add_piece(&d, Side::Right, 5, 0, 0), Err(Refusal(14)));
    }
    let d = by_hand(&[5], &[packed(0, 2, 4_094)]);
    assert_eq!(
        add_piece(&d, Side::Right, 5, 0, 0).map(|next| next.width),
        Ok(3)
    );
}

#[test]
fn pieces_are_joined_highest_first() {
    let a = Recorder::empty(fresh(4).unwrap(), 4, 1).run(&["01xz"]);
    let b = Recorder::empty(fresh(3).unwrap(), 2, 1).run(&["hul"]);
    let d = derivation(&[(1, 1, 0), (2, 2, 1), (1, 3, 2)]);
    let derived = derive_into(&d, &[&a, &b], 4, 1).unwrap();
    assert_eq!(listed(&derived), owned(&[(0, "xzhu01")]));
    assert_eq!(derived.used_bytes(), [0x80, 0x23, 0x45, 0x01]);
}

#[test]
fn entries_of_equal_index_pair_up() {
    let a = line(&[(0, "0"), (0, "1"), (4, "0"), (4, "1"), (4, "0")]);
    let b = line(&[(0, "1"), (4, "0"), (4, "1"), (6, "0")]);
    let d = derivation(&[(1, 0, 0), (2, 0, 0)]);
    let derived = derive_into(&d, &[&a, &b], 9, 9).unwrap();
    let expected = [
        (0, "01"),
        (0, "11"),
        (4, "00"),
        (4, "11"),
        (4, "01"),
        (6, "00"),
    ];
    assert_eq!(listed(&derived), owned(&expected));
}

#[test]
fn the_first_step_is_at_entry_0_alone() {
    let a = line(&[(0, "0"), (0, "1")]);
    let derived = derive_into(&derivation(&[(1, 0, 0)]), &[&a], 2, 2).unwrap();
    assert_eq!(listed(&derived), owned(&[(0, "0"), (0, "1")]));
}

#[test]
fn an_input_that_no_piece_names_counts_for_steps_and_sets() {
    let a = line(&[(0, "1")]);
    let b = line(&[(0, "0"), (3, "x"), (5, "z"), (7, "h")]);
    let d = by_hand(&[1, 2], &[packed(0, 1, 0)]);
    let derived = derive_into(&d, &[&a, &b], 9, 9).unwrap();
    assert_eq!(derived.used_indices(), [0, 3, 7]);
    assert_eq!(derived.used_bytes(), [0x01, 0x41, 0x81]);
    let late = line(&[(1, "0")]);
    assert_eq!(derive_into(&d, &[&a, &late], 9, 9).err(), Some(Refusal(15)));
}

#[test]
fn the_largest_set_is_that_of_the_descriptions() {
    let input = Recorder::with(bit_vector(2, States::Nine, 1), &[0x00, 0x01], &[0]);
    let derived = derive_into(&derivation(&[(1, 1, 0)]), &[&input], 2, 1).unwrap();
    assert_eq!(derived.description, bit_vector(2, States::Nine, 1));
    assert_eq!(derived.used_bytes(), [0x00, 0x01]);
}

#[test]
fn the_derived_list_is_worked_out_from_the_inputs() {
    let a = line(&[(0, "x"), (4, "1"), (5, "0"), (5, "1")]);
    let d = derivation(&[(1, 0, 0)]);
    let (inputs, bytes, indices) = shared(&[&a]);
    let list = derived_list(&d, &inputs, &bytes, &indices);
    let plain: Vec<_> = list
        .iter()
        .map(|s| (s.index, &s.string[..], s.states))
        .collect();
    let expected: [(u32, &[u8], States); 4] = [
        (0, b"x", States::Four),
        (4, b"1", States::Two),
        (5, b"0", States::Two),
        (5, b"1", States::Two),
    ];
    assert_eq!(plain, expected);
    let (description, bytes, indices) = derived_laid_out(1, States::Nine, &list);
    assert_eq!(description, bit_vector(1, States::Nine, 4));
    assert_eq!(
        (bytes, indices),
        (vec![0x42, 0x01, 0x00, 0x01], vec![0, 4, 5, 5])
    );
}

#[test]
fn unpicked_levels_are_untried() {
    let input = Recorder::with(bit_vector(2, States::Nine, 1), &[0x80, 0x91], &[0]);
    let low = derive_into(&derivation(&[(1, 0, 0)]), &[&input], 1, 1).unwrap();
    assert_eq!(low.used_bytes(), [0x81]);
    let high = derive_into(&derivation(&[(1, 1, 1)]), &[&input], 1, 1);
    assert_eq!(high.err(), Some(Refusal(10)));
}

#[test]
fn every_entry_of_a_run_is_counted() {
    for elements in [65_535, 65_536, 70_000, 131_072, 1_048_576] {
        let answer = Offset {
            start: 0,
            elements,
            time_match: false,
            next_index: None,
        };
        let indices = vec![3; elements as usize];
        assert_eq!(look_up(&indices, 4), Ok(Some(answer)));
    }
}
