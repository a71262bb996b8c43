//! Document 01's twelve rows through the oracle and, where its source is there, through wellen.

use compare::generate::Receiver;
use compare::operation::Case;
use compare::rows::{derive_bit_0, run};
use oracle::{Offset, States, look_up};

struct Nobody;

impl Receiver for Nobody {
    fn take(&mut self, _: &dyn Case) {}
}

#[cfg(wellen)]
#[test]
fn wellen_agrees_on_the_rows_and_edges() {
    let mut checker = compare::check::Checker::default();
    compare::rows::rows_and_edges(&mut checker);
    compare::rows::long_edges(&mut checker);
    assert_eq!(checker.disagreements, [""; 0]);
    assert!(
        checker.compared() > 30,
        "only {} comparisons",
        checker.compared()
    );
}

fn bytes(width: u32, changes: &[(u32, &str)]) -> Vec<u8> {
    run(width, changes, &mut Nobody).bytes
}

#[test]
fn rows_1_to_7() {
    assert_eq!(bytes(1, &[(0, "1")]), [0x01]);
    assert_eq!(bytes(1, &[(0, "x"), (1, "X")]), [0x42]);
    assert_eq!(bytes(3, &[(0, "x01")]), [0x61]);
    assert_eq!(
        bytes(3, &[(0, "x01"), (1, "hz1")]),
        [0x40, 0x21, 0x84, 0x31]
    );
    assert_eq!(bytes(4, &[(0, "1010")]), [0x0a]);
    assert_eq!(
        bytes(4, &[(0, "1010"), (1, "10xz")]),
        [0x00, 0x0a, 0x40, 0x4b]
    );
    assert_eq!(bytes(5, &[(0, "0000x")]), [0x40, 0x02]);
    assert_eq!(bytes(2, &[(0, "u-")]), [0x80, 0x58]);
}

#[test]
fn row_8() {
    let used = run(1, &[(5, "0"), (10, "0"), (7, "1"), (6, "0")], &mut Nobody);
    assert_eq!(used.indices, [5, 7]);
}

#[test]
fn rows_9_to_11() {
    let found = |start, elements, time_match, next_index| {
        Ok(Some(Offset {
            start,
            elements,
            time_match,
            next_index,
        }))
    };
    assert_eq!(look_up(&[0, 5, 5, 9], 6), found(1, 2, false, Some(9)));
    assert_eq!(look_up(&[0, 5, 5, 9], 9), found(3, 1, true, None));
    assert_eq!(look_up(&[3], 2), Ok(None));
}

#[test]
fn row_12() {
    let used = derive_bit_0(&mut Nobody);
    assert_eq!(used.bytes, [0x41, 0x01]);
    assert_eq!(used.indices, [0, 4]);
    let oracle::Encoding::BitVector { width, max_states } = used.description.encoding else {
        panic!("not a bit vector");
    };
    assert_eq!((width, max_states), (1, States::Four));
}
