//! The stored cases of the program `cases`: what they expect is what this model gives.

use model::cases::answer_line;
use model::generate::{directed, line, Cases};
use std::collections::{BTreeMap, BTreeSet};
use std::path::{Path, PathBuf};

/// Longer directed cases are not stored; the program's own test makes them.
const LONGEST: usize = 3_000;

fn folder() -> PathBuf {
    Path::new(env!("CARGO_MANIFEST_DIR")).join("../rust/tests/cases")
}

/// The name and the text of each file.
fn files() -> Vec<(String, String)> {
    let mut files = Vec::new();
    for entry in std::fs::read_dir(folder()).unwrap() {
        let path = entry.unwrap().path();
        if path.extension().is_some_and(|extension| extension == "txt") {
            let name = path.file_stem().unwrap().to_string_lossy().into_owned();
            files.push((name, std::fs::read_to_string(&path).unwrap()));
        }
    }
    files
}

#[test]
fn stored_cases() {
    let mut count = 0;
    for (name, text) in files() {
        for (number, line) in text.lines().enumerate() {
            let (_, stored) = line.split_once(" | ").unwrap();
            assert_eq!(answer_line(line), stored, "{name}: line {}", number + 1);
            count += 1;
        }
    }
    assert!(count > 3_500);
}

/// The name of a line's call and the first number of its answer.
fn outcome(line: &str) -> (String, String) {
    let (inputs, answer) = line.split_once(" | ").unwrap();
    let first = |text: &str| text.split(' ').next().unwrap().to_string();
    (first(inputs), first(answer))
}

#[test]
fn every_call_and_every_decline_is_stored() {
    let files = files();
    let lines = files.iter().flat_map(|(_, text)| text.lines());
    let stored: BTreeSet<_> = lines.map(outcome).collect();
    let requests = Cases::of_requests(1, 512).take(2000);
    for case in Cases::new(1, 512).take(8000).chain(requests) {
        // A list of calls has no answer of its own.
        if case.call.is_list() {
            continue;
        }
        let outcome = outcome(&line(&case).unwrap());
        assert!(stored.contains(&outcome), "{outcome:?}");
    }
}

#[test]
fn directed_cases_are_stored() {
    let mut made = BTreeMap::from(directed::REQUEST_SUBJECTS.map(|of| (of.name, String::new())));
    for (subject, case) in directed::request_cases() {
        let line = line(&case).unwrap();
        if line.len() <= LONGEST {
            *made.get_mut(subject).unwrap() += &format!("{line}\n");
        }
    }
    for (subject, made) in made {
        let path = folder().join(format!("directed_{subject}.txt"));
        let stored = std::fs::read_to_string(path).unwrap();
        assert!(stored == made, "{subject}");
    }
}
