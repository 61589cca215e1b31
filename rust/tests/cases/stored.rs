//! Stored cases.

use std::fs;
use std::path::Path;

use crate::run::{check, printed};

fn stored() -> String {
    let folder = Path::new(env!("CARGO_MANIFEST_DIR")).join("tests/cases");
    let mut text = String::new();
    for entry in fs::read_dir(folder).expect("the stored cases") {
        let path = entry.expect("a stored file").path();
        if path.extension().is_some_and(|extension| extension == "txt") {
            text += &fs::read_to_string(path).expect("stored cases");
        }
    }
    text
}

#[test]
fn cases() {
    let text = stored();
    let parted = text.lines().map(|line| line.split_once(" | "));
    let cases = parted.map(|line| {
        let (inputs, expected) = line.expect("a bar");
        (inputs.to_string(), expected.to_string())
    });
    let cases: Vec<(String, String)> = cases.collect();
    assert!(cases.len() > 3_500);
    check(&cases);
}

/// Whole lines, with what they expect.
#[test]
fn what_follows_a_bar_is_ignored() {
    let text = stored();
    let rights = text.lines().filter_map(|line| line.split_once(" | "));
    let expected: String = rights.map(|(_, right)| format!("{right}\n")).collect();
    assert!(printed(text.as_bytes()) == expected);
}

/// The proved program `conformance` and this one print the same for its stored inputs.
#[test]
fn inputs_of_the_conformance_program() {
    let folder = Path::new(env!("CARGO_MANIFEST_DIR")).join("../crates/conformance");
    let inputs = fs::read(folder.join("stdin")).expect("its inputs");
    let expected = fs::read_to_string(folder.join("stdout")).expect("what it prints");
    assert!(printed(&inputs) == expected);
}
