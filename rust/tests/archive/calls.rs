//! Cases of every call: random and damaged, directed, and stored ones.

use std::path::Path;

use model::generate::{directed, Cases, DEFAULT_WORDS, MOST_WORDS};

use crate::case::{check, is_call};
use crate::settings::{cases, seed, Report};

fn random_cases(seed: u64, most_words: u32, count: usize) {
    let report = Report::new(format!(
        "calls on banks of up to {most_words} words, seed {seed}"
    ));
    for case in Cases::new(seed, most_words).take(count) {
        let expected = case.answer().expect("a case that the model knows");
        check(&case.inputs(), &expected);
    }
    report.finish(format_args!("{count} cases"));
}

#[test]
fn random_short_cases() {
    random_cases(seed(1), DEFAULT_WORDS, cases(1));
}

#[test]
fn random_middle_cases() {
    random_cases(seed(2), 8192, cases(40));
}

#[test]
fn random_long_cases() {
    random_cases(seed(3), MOST_WORDS, cases(200));
}

#[test]
fn directed_cases() {
    let report = Report::new(String::from("directed calls"));
    let all = directed::cases();
    for (_, case) in &all {
        let expected = case.answer().expect("a case that the model knows");
        check(&case.inputs(), &expected);
    }
    report.finish(format_args!("{} cases", all.len()));
}

/// The stored cases of the program `cases` that are calls: the left side of each line and what it expects.
pub fn stored() -> Vec<(String, String)> {
    let folder = Path::new(env!("CARGO_MANIFEST_DIR")).join("tests/cases");
    let mut cases = Vec::new();
    for entry in std::fs::read_dir(folder).expect("the stored cases") {
        let path = entry.expect("a stored file").path();
        if path.extension().is_some_and(|extension| extension == "txt") {
            let text = std::fs::read_to_string(path).expect("stored cases");
            cases.extend(text.lines().filter_map(stored_case));
        }
    }
    cases
}

/// None for a line that is no case.
fn stored_case(line: &str) -> Option<(String, String)> {
    let (left, expected) = line.split_once(" | ").expect("a bar");
    let is_case = is_call(left) && expected != "?";
    is_case.then(|| (left.to_string(), expected.to_string()))
}

#[test]
fn stored_cases() {
    let report = Report::new(String::from("stored calls"));
    let cases = stored();
    for (left, expected) in &cases {
        check(left, expected);
    }
    assert!(!cases.is_empty());
    report.finish(format_args!("{} cases", cases.len()));
}
