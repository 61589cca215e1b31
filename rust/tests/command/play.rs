//! `yohrundel play`.

use std::fs;
use std::path::Path;

use model::script::{Record, BYTE_LIMIT};
use model::sequence::word_of;

use crate::run::{file, finish, run, spawn, Ran};

pub const SCRIPT: &[u8] = include_bytes!("../../../crates/play/stdin");

fn play_input(script: &[u8]) -> Ran {
    finish(spawn(&["play", "-"]), script)
}

/// It gets the line 14, the reason and the status 1.
fn refused(script: &[u8], cause: &str) {
    let reason = format!("declined by 14: the script is malformed: {cause}");
    let expected = Ran {
        status: Some(1),
        out: model::script::play(script).into(),
        err: format!("yohrundel: play: {reason}\n"),
    };
    assert_eq!(expected.out, b"14\n");
    assert_eq!(play_input(script), expected);
}

#[test]
fn worked_example() {
    let expected = include_str!("../../../crates/play/stdout");
    assert_eq!(play_input(SCRIPT).printed(), expected);
    let path = file("worked-example", SCRIPT);
    let arguments = ["play".as_ref(), path.as_os_str()];
    assert_eq!(run(&arguments).printed(), expected);
}

#[test]
fn empty_and_longest_scripts() {
    assert_eq!(play_input(b"").printed(), "");
    let longest = vec![0; BYTE_LIMIT];
    let expected = model::script::play(&longest);
    assert_eq!(play_input(&longest).printed(), expected);
    assert_eq!(expected.lines().count(), BYTE_LIMIT / 8);
}

#[test]
fn no_scripts() {
    refused(&SCRIPT[..SCRIPT.len() - 1], "71 bytes are no multiple of 8");
    let kind = "record 0 has the kind 3, not 0 to 2";
    refused(&[3, 0, 0, 0, 0, 0, 0, 0], kind);
    let unused = [SCRIPT, &[1, 0, 0, 0, 0, 0, 0, 1], SCRIPT].concat();
    refused(&unused, "record 9 has 0x01 in its unused byte 7, not 0");
    refused(&vec![0; BYTE_LIMIT + 8], "more than 65536 bytes");
}

fn store(register: u8, form: u8, value: u32) -> Record {
    Record::Store {
        register,
        form,
        value,
    }
}

/// Frees the upper boot alias, programs bank 2's sequence quad there, and resets.
pub fn sequence_script(low: u16) -> Vec<u8> {
    let keys = [0, 0xAA99_6655, 0x5566_99AA].map(|key| store(1, 0, key));
    let free = [&keys[..], &[store(9, 1, 0x1F)]].concat();
    let quad = [
        store(2, 0, 0x1FC2_0070),
        store(3, 0, word_of(low)),
        store(0, 0, 2),
        store(0, 2, 0x4000),
    ];
    let launch = [
        &keys[..],
        &[store(0, 2, 0x8000), Record::Step, Record::Reset { kind: 0 }],
    ];
    let records = [free, quad.to_vec(), launch.concat()].concat();
    records.iter().flat_map(Record::bytes).collect()
}

/// Bank 1 has T = 1: a reset chooses bank 2 where that has T = 2, and not where it has T = 1 too.
#[test]
fn sequence_number_of_bank_1() {
    for (low, last) in [(1, "13 0 00000000 0\n"), (2, "13 0 00000040 0\n")] {
        let script = sequence_script(low);
        let expected = model::script::play(&script);
        assert!(expected.ends_with(last), "{expected}");
        assert_eq!(play_input(&script).printed(), expected);
    }
}

#[test]
fn stored_scripts() {
    let folder = Path::new(env!("CARGO_MANIFEST_DIR")).join("../model/vectors/scripts");
    let mut count = 0;
    for entry in fs::read_dir(folder).expect("the scripts") {
        let path = entry.expect("a script").path();
        if path.extension().is_some_and(|end| end == "bin") {
            let ran = run(&["play".as_ref(), path.as_os_str()]);
            let expected = fs::read(path.with_extension("out")).expect("its output");
            assert_eq!(ran.status, Some(i32::from(expected == b"14\n")));
            assert_eq!(ran.out, expected, "{path:?}");
            count += 1;
        }
    }
    assert!(count > 0);
}
