//! Runs of the program.

use std::io::{ErrorKind, Write};
use std::process::{Command, Output, Stdio};
use std::thread;

pub const PROGRAM: &str = env!("CARGO_BIN_EXE_cases");

/// Hands over the input while the output is read.
pub fn run(input: &[u8]) -> Output {
    let mut child = Command::new(PROGRAM)
        .stdin(Stdio::piped())
        .stdout(Stdio::piped())
        .stderr(Stdio::piped())
        .spawn()
        .expect("the program is run");
    let mut pipe = child.stdin.take().expect("a pipe");
    thread::scope(|scope| {
        scope.spawn(move || match pipe.write_all(input) {
            Err(error) if error.kind() != ErrorKind::BrokenPipe => panic!("{error}"),
            _ => {}
        });
        child.wait_with_output().expect("its outputs")
    })
}

/// What a run without failure printed.
pub fn printed(input: &[u8]) -> String {
    let ran = run(input);
    assert!(ran.status.success());
    assert_eq!(ran.stderr, b"");
    String::from_utf8(ran.stdout).expect("standard output is text")
}

/// The program prints, for inputs a line each, what is expected for each.
pub fn check(cases: &[(String, String)]) {
    let lines = cases.iter().map(|(inputs, _)| format!("{inputs}\n"));
    let printed = printed(lines.collect::<String>().as_bytes());
    assert_eq!(printed.lines().count(), cases.len());
    for ((inputs, expected), given) in cases.iter().zip(printed.lines()) {
        assert!(
            given == expected,
            "\n{inputs} | {expected}\ncases gave: {given}\n"
        );
    }
}
