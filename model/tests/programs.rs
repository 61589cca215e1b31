//! What the proved programs are expected to print is what this model gives for their stored inputs.

use model::cases::{answer_line, left_of_bar};
use model::cuts::cuts;
use model::generate::directed::base_cases;
use model::generate::record_edges;
use model::script::{play, unbundled};
use std::collections::HashSet;
use std::path::{Path, PathBuf};

fn stored(program: &str, name: &str) -> Vec<u8> {
    let root: PathBuf = Path::new(env!("CARGO_MANIFEST_DIR")).join("../crates");
    std::fs::read(root.join(program).join(name)).unwrap()
}

#[test]
fn play_program() {
    let printed = play(&stored("play", "stdin"));
    assert_eq!(printed.as_bytes(), stored("play", "stdout"));
}

#[test]
fn bundle_of_scripts() {
    let bytes = stored("conformance_scripts", "stdin");
    let scripts = unbundled(&bytes);
    let printed: String = scripts.iter().map(|s| play(s) + "-\n").collect();
    assert_eq!(printed.as_bytes(), stored("conformance_scripts", "stdout"));

    let vectors = Path::new(env!("CARGO_MANIFEST_DIR")).join("vectors/scripts");
    for entry in std::fs::read_dir(vectors).unwrap() {
        let path = entry.unwrap().path();
        if path.extension().unwrap() == "bin" {
            let script = std::fs::read(&path).unwrap();
            assert!(scripts.contains(&&script[..]), "{}", path.display());
        }
    }
    for script in record_edges() {
        assert!(scripts.contains(&&script[..]), "{script:?}");
    }
}

#[test]
fn conformance_program() {
    let inputs = stored("conformance", "stdin");
    let printed: String = inputs
        .split(|&byte| byte == b'\n')
        .map(|line| answer_line(&String::from_utf8_lossy(line)) + "\n")
        .collect();
    assert_eq!(printed.as_bytes(), stored("conformance", "stdout"));
}

/// The stored cases of the base's calls and every directed one of these calls are among the program's inputs.
#[test]
fn conformance_inputs() {
    let inputs = stored("conformance", "stdin");
    let inputs = String::from_utf8_lossy(&inputs);
    let there: HashSet<&str> = inputs.lines().map(left_of_bar).collect();
    let calls = Path::new(env!("CARGO_MANIFEST_DIR")).join("../rust/tests/cases/calls.txt");
    for line in std::fs::read_to_string(calls).unwrap().lines() {
        assert!(there.contains(left_of_bar(line)), "{line}");
    }
    for (subject, case) in base_cases() {
        let inputs = case.inputs();
        assert!(there.contains(&inputs[..]), "{subject}: {inputs}");
    }
}

#[test]
fn cuts_program() {
    assert_eq!(cuts().as_bytes(), stored("conformance_cuts", "stdout"));
}
