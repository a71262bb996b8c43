//! Numbers: both ends of each form, sets that do not count, and every refusal in its order.

use oracle::{Description, Encoding, Form, Refusal, States, fresh, fresh_real, number};

use crate::support::{Recorder, bit_vector};

const FORMS: [Form; 3] = [Form::Unsigned, Form::Signed, Form::Decimal];

fn read(record: &Recorder, form: Form, entry: u32) -> Result<i128, Refusal> {
    let Recorder {
        bytes, byte_start, ..
    } = record;
    number(form, record.description, bytes, *byte_start, entry)
}

/// A record of these levels alone, read in a form.
fn of(form: Form, levels: &str) -> Result<i128, Refusal> {
    let width = levels.len() as u32;
    let record = Recorder::empty(fresh(width).unwrap(), levels.len() + 1, 1).run(&[levels]);
    read(&record, form, 0)
}

/// An entry of any bytes, read in every form.
fn all(width: u32, largest: States, entry: &[u8]) -> [Result<i128, Refusal>; 3] {
    let record = Recorder::with(bit_vector(width, largest, 1), entry, &[0]);
    FORMS.map(|form| read(&record, form, 0))
}

fn refused<T>(number: u8) -> Result<T, Refusal> {
    Err(Refusal(number))
}

#[test]
fn unsigned_counts_from_the_last_character() {
    let rows = [
        ("0", 0),
        ("1", 1),
        ("10", 2),
        ("1010", 10),
        ("0101", 5),
        ("100000101", 261),
        ("11111111111111111111111111111111", 4_294_967_295),
        ("100000000000000000000000000000000", 4_294_967_296),
    ];
    for (levels, value) in rows {
        assert_eq!(of(Form::Unsigned, levels), Ok(value), "{levels}");
    }
    let ones = "1".repeat(64);
    assert_eq!(of(Form::Unsigned, &ones), Ok(18_446_744_073_709_551_615));
    let highest = format!("1{}", "0".repeat(63));
    assert_eq!(of(Form::Unsigned, &highest), Ok(9_223_372_036_854_775_808));
    assert_eq!(of(Form::Unsigned, &"0".repeat(64)), Ok(0));
}

#[test]
fn signed_reaches_both_ends() {
    let rows = [
        ("0", 0),
        ("1", -1),
        ("01", 1),
        ("10", -2),
        ("11", -1),
        ("0111", 7),
        ("1000", -8),
        ("1010", -6),
        ("10000000", -128),
        ("01111111", 127),
        ("11111111111111111111111111111110", -2),
    ];
    for (levels, value) in rows {
        assert_eq!(of(Form::Signed, levels), Ok(value), "{levels}");
    }
    let least = format!("1{}", "0".repeat(63));
    assert_eq!(of(Form::Signed, &least), Ok(-9_223_372_036_854_775_808));
    let greatest = format!("0{}", "1".repeat(63));
    assert_eq!(of(Form::Signed, &greatest), Ok(9_223_372_036_854_775_807));
    assert_eq!(of(Form::Signed, &"1".repeat(64)), Ok(-1));
    let below = format!("1{}", "0".repeat(62));
    assert_eq!(of(Form::Signed, &below), Ok(-4_611_686_018_427_387_904));
}

#[test]
fn decimal_has_four_bits_a_digit() {
    let rows = [
        ("0000", 0),
        ("1001", 9),
        ("00010000", 10),
        ("10011001", 99),
        ("000000000101", 5),
        ("001101000101", 345),
        ("0001001000110100010101100111100010010000", 1_234_567_890),
    ];
    for (levels, value) in rows {
        assert_eq!(of(Form::Decimal, levels), Ok(value), "{levels}");
    }
    let nines = "1001".repeat(16);
    assert_eq!(of(Form::Decimal, &nines), Ok(9_999_999_999_999_999));
    let one = format!("0001{}", "0000".repeat(15));
    assert_eq!(of(Form::Decimal, &one), Ok(1_000_000_000_000_000));
}

#[test]
fn an_own_set_does_not_count() {
    // `0101` packed under Two, Four and Nine, each in a record of Nine.
    for entry in [[0x00, 0x00, 0x05], [0x40, 0x00, 0x11], [0x80, 0x01, 0x01]] {
        assert_eq!(all(4, States::Nine, &entry), [Ok(5), Ok(5), Ok(5)]);
    }
    // `1` marked Four, as a slice of `x1` leaves it.
    assert_eq!(all(1, States::Four, &[0x41])[..2], [Ok(1), Ok(-1)]);
    assert_eq!(all(1, States::Nine, &[0x81])[..2], [Ok(1), Ok(-1)]);
}

#[test]
fn bits_above_the_first_level_do_not_count() {
    assert_eq!(all(4, States::Two, &[0xF9]), [Ok(9), Ok(-7), Ok(9)]);
    assert_eq!(all(4, States::Four, &[0x3F, 0xF9]), [Ok(9), Ok(-7), Ok(9)]);
    assert_eq!(all(3, States::Four, &[0x3E])[..2], [Ok(6), Ok(-2)]);
}

#[test]
fn refuses_2_and_3_and_8_in_this_order() {
    let far = |description| {
        let mut record = Recorder::with(description, &[], &[]);
        record.byte_start = usize::MAX;
        record
    };
    let event = Description::counting(Encoding::Event, 1);
    for form in FORMS {
        for description in [bit_vector(65, States::Two, 0), fresh_real(), event] {
            assert_eq!(read(&far(description), form, u32::MAX), refused(2));
        }
        for width in [0, 4_097, u32::MAX] {
            let record = Recorder::with(bit_vector(width, States::Two, 0), &[], &[]);
            assert_eq!(read(&record, form, 0), refused(2));
        }
        for description in [fresh_real(), event] {
            let record = Recorder::with(description, &[], &[]);
            assert_eq!(read(&record, form, u32::MAX), refused(3));
        }
        let empty = Recorder::with(bit_vector(65, States::Two, 0), &[], &[]);
        assert_eq!(read(&empty, form, 0), refused(8));
    }
}

#[test]
fn refuses_9_and_10_before_a_width() {
    let (mut bad_mark, mut bad_code) = (vec![0x99; 2_049], vec![0; 2_049]);
    bad_mark[0] = 0xC0;
    (bad_code[0], bad_code[2_048]) = (0x80, 0x09);
    assert_eq!(all(4_096, States::Nine, &bad_mark), [refused(9); 3]);
    assert_eq!(all(4_096, States::Nine, &bad_code), [refused(10); 3]);
    bad_code[2_048] = 0x08;
    assert_eq!(all(4_096, States::Nine, &bad_code), [refused(16); 3]);
    assert_eq!(all(1, States::Four, &[0x80]), [refused(9); 3]);
    assert_eq!(all(1, States::Nine, &[0x89]), [refused(10); 3]);
}

#[test]
fn refuses_16_before_17() {
    for levels in ["0".repeat(65), "x".repeat(65), "0".repeat(68)] {
        assert_eq!(FORMS.map(|form| of(form, &levels)), [refused(16); 3]);
    }
    for width in (1..=64).filter(|width| width % 4 != 0) {
        assert_eq!(of(Form::Decimal, &"0".repeat(width)), refused(16));
        assert_eq!(of(Form::Decimal, &"-".repeat(width)), refused(16));
        assert_eq!(of(Form::Unsigned, &"0".repeat(width)), Ok(0));
        assert_eq!(of(Form::Signed, &"0".repeat(width)), Ok(0));
    }
}

#[test]
fn refuses_17_for_each_other_level() {
    for other in "xzhuwl-".chars() {
        for levels in [format!("000{other}"), format!("{other}001")] {
            assert_eq!(FORMS.map(|form| of(form, &levels)), [refused(17); 3]);
        }
    }
}

#[test]
fn refuses_17_before_18() {
    assert_eq!(of(Form::Decimal, "1111000x"), refused(17));
    assert_eq!(of(Form::Decimal, "11110001"), refused(18));
    assert_eq!(of(Form::Decimal, "00011010"), refused(18));
    for digit in 10..16 {
        let levels = format!("{digit:04b}");
        assert_eq!(of(Form::Decimal, &levels), refused(18));
        assert_eq!(of(Form::Unsigned, &levels), Ok(digit));
    }
}
