//! Numbers that are no description are refused with 2, and everything comes back as it was.

use yoksimert::raw::{self, FlatDescription, FlatRecord};

const KINDS: [u32; 6] = [0, 1, 2, 3, 258, u32::MAX];
const WIDTHS: [u32; 5] = [0, 1, 3, 4_096, u32::MAX];
const SETS: [u32; 6] = [0, 1, 2, 3, 256, u32::MAX];
const COUNTS: [u32; 3] = [0, 1, u32::MAX];

fn is_description(flat: FlatDescription) -> bool {
    match flat.kind {
        0 | 1 => flat.width == 0 && flat.set == 0,
        2 => flat.set <= 2,
        _ => false,
    }
}

fn each(mut take: impl FnMut(FlatDescription)) {
    for kind in KINDS {
        for width in WIDTHS {
            for set in SETS {
                for count in COUNTS {
                    take(FlatDescription::new(kind, width, set, count));
                }
            }
        }
    }
}

/// The three calls of Numbers refuse with 2, and their value is 0.
fn assert_no_number(flat: FlatDescription, bytes: &[u8]) {
    let [unsigned, decimal] = [raw::unsigned, raw::decimal].map(|call| call(flat, bytes, 0, 0));
    assert_eq!((unsigned.number, unsigned.value), (2, 0));
    assert_eq!((decimal.number, decimal.value), (2, 0));
    let signed = raw::signed(flat, bytes, 0, 0);
    assert_eq!((signed.number, signed.value), (2, 0));
}

#[test]
fn other_numbers_are_refused() {
    let mut refused = 0;
    each(|flat| {
        if is_description(flat) {
            return;
        }
        refused += 1;
        let (mut bytes, mut indices, mut out) = ([7; 40], [9; 4], [b'q'; 8]);
        let mut recorder = flat;
        let number =
            raw::recorder_add_change(&mut recorder, &mut bytes, 0, &mut indices, 0, 1, b"1");
        assert_eq!((number, recorder), (2, flat));
        let number = raw::recorder_add_real(&mut recorder, &mut bytes, 0, &mut indices, 0, 1, 1);
        assert_eq!((number, recorder), (2, flat));
        let entry = raw::read(flat, &bytes, 0, 0);
        assert_eq!((entry.number, entry.start, entry.length), (2, 0, 0));
        assert_eq!(raw::text(flat, &bytes, 0, 0, &mut out), 2);
        assert_no_number(flat, &bytes);
        let record = |description| FlatRecord {
            description,
            bytes: &bytes,
            byte_start: 0,
            indices: &indices,
            index_start: 0,
        };
        for (a, b) in [
            (flat, flat),
            (flat, raw::fresh_real()),
            (raw::fresh_real(), flat),
        ] {
            let answer = raw::compare(record(a), record(b));
            assert_eq!((answer.number, answer.equal), (2, false));
        }
        assert_eq!((bytes, indices, out), ([7; 40], [9; 4], [b'q'; 8]));
    });
    assert_eq!(refused, 3 * (2 * 29 + 3 * 5 + 3 * 30));
}

#[test]
fn numbers_come_back_from_a_repeat() {
    let mut repeats = 0;
    each(|flat| {
        if !is_description(flat)
            || flat.kind != 2
            || !(1..=8).contains(&flat.width)
            || flat.count != 1
        {
            return;
        }
        let (mut bytes, mut indices) = ([0; 8], [0; 2]);
        let string = vec![b'0'; flat.width as usize];
        let mut recorder = flat;
        let number =
            raw::recorder_add_change(&mut recorder, &mut bytes, 0, &mut indices, 0, 5, &string);
        assert_eq!((number, recorder), (0, flat));
        repeats += 1;
    });
    assert_eq!(repeats, 2 * 3, "widths 1 and 3, three sets");
}

#[test]
fn a_width_too_large_gives_no_description() {
    let made = raw::fresh(4_097);
    assert_eq!((made.number, is_description(made.description)), (1, false));
}

/// Fresh of a recorder that is lent leaves what Fresh by value hands back, and a refused call leaves the recorder as it was.
#[test]
fn a_lent_recorder_is_changed_in_place() {
    each(|flat| {
        let mut recorder = flat;
        assert_eq!(raw::recorder_fresh(&mut recorder, 4_097), 1);
        assert_eq!(recorder, flat);
        for width in [0, 1, 4_096] {
            assert_eq!(raw::recorder_fresh(&mut recorder, width), 0);
            assert_eq!(recorder, raw::fresh(width).description);
        }
        let mut recorder = flat;
        assert_eq!(raw::recorder_fresh_real(&mut recorder), 0);
        assert_eq!(recorder, raw::fresh_real());
    });
    let mut recorder = raw::fresh(2).description;
    let (mut bytes, mut indices) = ([0; 6], [0; 3]);
    let mut add = |string: &[u8], index| {
        let before = recorder;
        let number =
            raw::recorder_add_change(&mut recorder, &mut bytes, 1, &mut indices, 0, index, string);
        assert!(number == 0 || recorder == before, "{number}");
        (number, recorder.count, recorder.set)
    };
    assert_eq!(add(b"01", 3), (0, 1, 0));
    assert_eq!(add(b"x1", 4), (0, 2, 1));
    assert_eq!(add(b"X1", 5), (0, 2, 1));
    assert_eq!(add(b"q1", 6), (5, 2, 1));
    assert_eq!(add(b"-", 7), (4, 2, 1));
    assert_eq!(add(b"u-", 3), (6, 2, 1));
    assert_eq!(add(b"u-", 8), (7, 2, 1));
    assert_eq!(
        raw::recorder_add_real(&mut recorder, &mut bytes, 1, &mut indices, 0, 9, 0),
        3
    );
}
