//! Outputs that are pipes, closed pipes or full.

use std::fs::File;
use std::io::Read;
use std::process::{Command, Stdio};
use std::thread::sleep;
use std::time::Duration;

use crate::run::{finish, run, spawn, Ran, PROGRAM};

/// A reader that is gone gets nothing: no success, and nothing is said. A shell gives 128 + 13 for a program that SIGPIPE ends.
const CLOSED: Ran = Ran {
    status: Some(141),
    out: Vec::new(),
    err: String::new(),
};

#[test]
fn closed_pipe() {
    let mut child = spawn(&["play", "-"]);
    drop(child.stdout.take());
    assert_eq!(finish(child, &[0; 8]), CLOSED);
}

/// An empty script prints nothing, which is all written without a reader.
#[test]
fn closed_pipe_of_nothing() {
    let mut child = spawn(&["play", "-"]);
    drop(child.stdout.take());
    assert_eq!(finish(child, b"").printed(), "");
}

/// A pipe holds a short text, whether its reader takes it or not.
#[test]
fn reader_of_a_part_of_a_short_text() {
    let shell = "set -o pipefail; \"$0\" plan 0 1 0:1 | head -c 3";
    let ran = Command::new("bash").args(["-c", shell, PROGRAM]).output();
    assert_eq!(Ran::new(ran.expect("bash")).printed(), "Wai");
}

/// In a shell that asks for it, a pipeline ends as one of `yes | head -n 1` does.
#[test]
fn status_in_a_shell() {
    let front = |command: &str| {
        let shell = format!("set -o pipefail; {command} | head -c 3 > /dev/null");
        let ran = Command::new("bash").args(["-c", &shell, PROGRAM]).output();
        Ran::new(ran.expect("bash"))
    };
    assert_eq!(front("\"$0\" script 128 5 128"), CLOSED);
    assert_eq!(front("yes"), CLOSED);
}

/// What is declined stays declined.
#[test]
fn closed_pipe_of_a_declined_script() {
    let mut child = spawn(&["play", "-"]);
    drop(child.stdout.take());
    let reason = "play: declined by 14: the script is malformed: 2 bytes are no multiple of 8";
    assert_eq!(finish(child, b"no").reason(1), reason);
}

/// A reader that takes a part of a script, as `head -c` does.
#[test]
fn closed_pipe_of_a_long_script() {
    let mut child = spawn(&["script", "128", "5", "128"]);
    let mut pipe = child.stdout.take().expect("a pipe");
    let mut front = [0; 800];
    pipe.read_exact(&mut front).expect("the front of a script");
    drop(pipe);
    assert_eq!(finish(child, b""), CLOSED);
    let whole = run(&["script", "128", "5", "128"]).out;
    assert_eq!((whole.len(), &whole[..800]), (15_262_112, &front[..]));
}

#[test]
fn output_that_cannot_be_written() {
    let mut command = Command::new(PROGRAM);
    let full = File::create("/dev/full").expect("the full device");
    command.arg("--help").stdout(Stdio::from(full));
    let ran = Ran::new(command.output().expect("the command is run"));
    let reason = "the output cannot be written: No space left on device (os error 28)";
    assert_eq!(ran.reason(3), reason);
}

/// The largest sign's image comes more than a second late, from when on a terminal would get a bar.
#[test]
fn no_bar_in_a_pipe() {
    let child = spawn(&["update", "128", "5", "128", "-"]);
    sleep(Duration::from_millis(1200));
    let ran = finish(child, &vec![7; 133 * 128 * 128]);
    let printed = ran.printed();
    assert!(printed.contains("done after 1907764 turns"));
    assert!(!printed.contains('\r'));
}

/// At most 78 columns, and no blanks at the end of a line.
#[test]
fn lines_of_the_largest_picture() {
    let printed = run(&["update", "1", "5", "128"]).printed();
    let longest = printed.lines().map(str::len).max();
    assert_eq!(longest, Some(78));
    assert!(printed.lines().all(|line| line == line.trim_end()));
}
