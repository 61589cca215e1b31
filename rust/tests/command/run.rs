//! Runs of the command.

use std::ffi::OsStr;
use std::fs;
use std::io::{ErrorKind, Write};
use std::path::PathBuf;
use std::process::{Child, Command, Output, Stdio};

pub const PROGRAM: &str = env!("CARGO_BIN_EXE_yohrundel");

/// How a run ended.
#[derive(Debug, PartialEq, Eq)]
pub struct Ran {
    pub status: Option<i32>,
    pub out: Vec<u8>,
    pub err: String,
}

impl Ran {
    pub fn new(output: Output) -> Ran {
        Ran {
            status: output.status.code(),
            out: output.stdout,
            err: String::from_utf8(output.stderr).expect("standard error is text"),
        }
    }

    /// What a run without failure printed.
    pub fn printed(self) -> String {
        assert_eq!((self.status, self.err.as_str()), (Some(0), ""));
        String::from_utf8(self.out).expect("standard output is text")
    }

    /// The reason of a run that failed with a status and printed nothing else.
    pub fn reason(self, status: i32) -> String {
        assert_eq!((self.status, self.out.as_slice()), (Some(status), &[][..]));
        let line = self.err.strip_suffix('\n').expect("a line");
        let reason = line.strip_prefix("yohrundel: ").expect("its name in front");
        assert!(!reason.contains('\n'), "more than one line: {reason}");
        reason.to_string()
    }
}

/// A run whose outputs and input are pipes.
pub fn spawn<S: AsRef<OsStr>>(arguments: &[S]) -> Child {
    Command::new(PROGRAM)
        .args(arguments)
        .stdin(Stdio::piped())
        .stdout(Stdio::piped())
        .stderr(Stdio::piped())
        .spawn()
        .expect("the command is run")
}

pub fn run<S: AsRef<OsStr>>(arguments: &[S]) -> Ran {
    finish(spawn(arguments), b"")
}

/// Hands over the input and waits for the end.
pub fn finish(mut child: Child, input: &[u8]) -> Ran {
    let mut pipe = child.stdin.take().expect("a pipe");
    match pipe.write_all(input) {
        // It need not read all of its input.
        Err(error) if error.kind() != ErrorKind::BrokenPipe => panic!("{error}"),
        _ => drop(pipe),
    }
    Ran::new(child.wait_with_output().expect("its outputs"))
}

/// A file for the command to read.
pub fn file(name: &str, bytes: &[u8]) -> PathBuf {
    let path = PathBuf::from(env!("CARGO_TARGET_TMPDIR")).join(name);
    fs::write(&path, bytes).expect("a file");
    path
}

/// Words as bytes, lowest byte first.
pub fn bytes(words: &[u32]) -> Vec<u8> {
    words.iter().flat_map(|word| word.to_le_bytes()).collect()
}
