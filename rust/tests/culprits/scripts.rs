//! Declines 14, 20 and 21.

use crate::sign::Sign;
use crate::{text, Told};

const STORE: [u8; 8] = [0, 2, 0, 0, 0x80, 0, 0, 0x1D];
const STEP: [u8; 8] = [1, 0, 0, 0, 0, 0, 0, 0];
const RESET: [u8; 8] = [2, 0, 0, 0, 0, 0, 0, 0];

/// A record with another byte.
fn with(record: [u8; 8], byte: usize, value: u8) -> [u8; 8] {
    let mut record = record;
    record[byte] = value;
    record
}

/// A script of one good record and then this one.
fn second(record: [u8; 8]) -> Told {
    let script = [STEP, record].concat();
    let told = Sign::new().play(&script);
    if told.is_some() {
        let lengths = [64, 64, script.len()];
        assert_eq!(Sign::new().smallest(lengths, &script, 6), told);
    }
    told
}

#[test]
fn lengths() {
    let one = text("1 byte is no multiple of 8");
    assert_eq!(Sign::new().play(&[9]), one);
    for bytes in [2, 7, 9, 15] {
        let expected = text(&format!("{bytes} bytes are no multiple of 8"));
        assert_eq!(Sign::new().play(&[9; 16][..bytes]), expected);
    }
    assert_eq!(Sign::new().play(&[]), None);
    assert_eq!(Sign::new().play(&[0; 16]), None);
}

#[test]
fn unknown_numbers() {
    assert_eq!(
        [second(STORE), second(STEP), second(RESET)],
        [None, None, None]
    );
    assert_eq!(
        second(with(STEP, 0, 3)),
        text("record 1 has the kind 3, not 0 to 2")
    );
    let register = text("record 1 has the register 11, not 0 to 10");
    assert_eq!(second(with(STORE, 1, 11)), register);
    assert_eq!(second(with(STORE, 1, 10)), None);
    assert_eq!(
        second(with(STORE, 2, 4)),
        text("record 1 has the form 4, not 0 to 3")
    );
    assert_eq!(second(with(STORE, 2, 3)), None);
    let kind = text("record 1 has the reset kind 3, not 0 to 2");
    assert_eq!(second(with(RESET, 1, 3)), kind);
    assert_eq!(second(with(RESET, 1, 2)), None);
}

/// A store has byte 3 unused, a step all but its kind, a reset all but its two kinds.
#[test]
fn unused_bytes() {
    for byte in 1..8 {
        let expected = text(&format!(
            "record 1 has 0xA5 in its unused byte {byte}, not 0"
        ));
        assert_eq!(second(with(STEP, byte, 0xA5)), expected);
        if byte > 1 {
            assert_eq!(second(with(RESET, byte, 0xA5)), expected);
        }
        if byte == 3 {
            assert_eq!(second(with(STORE, byte, 0xA5)), expected);
        }
    }
}

/// The first of two bad records, and in it the kind before an unused byte.
#[test]
fn first_bad_record() {
    let script = [with(with(STEP, 0, 9), 3, 1), with(STEP, 1, 1)].concat();
    let expected = text("record 0 has the kind 9, not 0 to 2");
    assert_eq!(Sign::new().play(&script), expected);
}

fn smallest(records: &[[u8; 8]], number: u32) -> Told {
    let script = records.concat();
    Sign::new().smallest([64, 64, script.len()], &script, number)
}

#[test]
fn too_many_records() {
    assert_eq!(smallest(&[STEP; 65], 6), text("it has 65 records"));
    assert_eq!(smallest(&[STEP; 64], 6), None);
}

/// A step at rest gives 6, NVMKEY with form 1 gives 4.
#[test]
fn numbers_that_are_never_given() {
    let key = [0, 1, 1, 0, 0, 0, 0, 0];
    assert_eq!(smallest(&[STEP], 6), None);
    assert_eq!(
        smallest(&[STEP, STEP], 5),
        text("the number is 5, and the play gives 6")
    );
    let two = text("the number is 5, and the play gives 0 and 6");
    assert_eq!(smallest(&[STEP, STORE, STEP], 5), two);
    let three = text("the number is 5, and the play gives 0, 4 and 6");
    assert_eq!(smallest(&[STEP, key, STORE], 5), three);
    let zero = text("the number is 0, which counts as never given");
    assert_eq!(smallest(&[STORE], 0), zero);
    let none = text("the number is 6, and the script has no record");
    assert_eq!(smallest(&[], 6), none);
}
