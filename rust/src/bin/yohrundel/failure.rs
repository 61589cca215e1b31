//! How a command fails: a line on standard error and a status.

use std::ffi::OsStr;
use std::fmt::Display;
use std::io::{self, ErrorKind};

use yohrundel::culprit::Culprit;
use yohrundel::Decline;

/// The work is declined, by one of the paper's numbers, or a sweep finds a wrong outcome.
pub const DECLINED: u8 = 1;

/// The arguments, or the text of a file, are not understood.
pub const ARGUMENTS: u8 = 2;

/// A file cannot be read or written, or the output cannot be written.
pub const FILES: u8 = 3;

/// The reader of the output was gone before all was written: what a shell gives for a program that SIGPIPE, signal 13, ends.
pub const CLOSED: u8 = 128 + 13;

/// The statuses with what the help says of them.
pub const STATUSES: [(u8, &str); 5] = [
    (0, "the work is done"),
    (
        DECLINED,
        "the work is declined, with what was wrong, by a number that yohrundel why explains; or a \
         sweep finds a cut with a wrong outcome",
    ),
    (ARGUMENTS, "the arguments or a text are not understood"),
    (
        FILES,
        "a file cannot be read or written, or the output cannot be written",
    ),
    (
        CLOSED,
        "the reader of the output was gone before all was written, as with | head; nothing is \
         said of it",
    ),
];

pub struct Failure {
    /// What is printed all the same.
    pub output: Vec<u8>,
    /// One line; empty where nothing is said.
    pub reason: String,
    pub status: u8,
    /// Why the work is declined, where it is.
    pub declined: Option<Declined>,
}

/// A decline, and its cause where that is known.
pub struct Declined {
    pub decline: Decline,
    pub cause: Option<String>,
}

/// What a command prints.
pub type Answer = Result<Vec<u8>, Failure>;

impl Failure {
    fn new(status: u8, reason: String) -> Failure {
        Failure {
            output: Vec::new(),
            reason,
            status,
            declined: None,
        }
    }

    pub fn arguments(reason: impl Into<String>) -> Failure {
        Failure::new(ARGUMENTS, reason.into())
    }

    pub fn file(path: &OsStr, error: io::Error) -> Failure {
        Failure::new(FILES, format!("{path:?} cannot be read: {error}"))
    }

    pub fn unwritten(path: &OsStr, error: io::Error) -> Failure {
        Failure::new(FILES, format!("{path:?} cannot be written: {error}"))
    }

    /// A line of the text of a file, counted from 1, is not understood.
    pub fn line(path: &OsStr, number: usize, reason: impl Display) -> Failure {
        Failure::arguments(format!("line {number} of {path:?}: {reason}"))
    }

    /// The output cannot be written. That its reader is gone is no news to whoever ended it.
    pub fn output(error: io::Error) -> Failure {
        match error.kind() {
            ErrorKind::BrokenPipe => Failure::new(CLOSED, String::new()),
            _ => Failure::new(FILES, format!("the output cannot be written: {error}")),
        }
    }

    /// A cut with a wrong outcome, and what is printed all the same.
    pub fn wrong_outcome(output: Vec<u8>, cut: impl Display) -> Failure {
        Failure {
            output,
            ..Failure::new(DECLINED, format!("a wrong outcome: {cut}"))
        }
    }

    /// A decline with what the caller knows of its cause.
    pub fn declined(decline: Decline, cause: impl Display) -> Failure {
        Failure::of_decline(decline, Some(cause.to_string()))
    }

    fn of_decline(decline: Decline, cause: Option<String>) -> Failure {
        let reason = match &cause {
            Some(cause) => format!("{decline}: {cause}"),
            None => decline.to_string(),
        };
        Failure {
            declined: Some(Declined { decline, cause }),
            ..Failure::new(DECLINED, reason)
        }
    }
}

/// A decline with its cause, where the library's explanation finds it.
pub fn explained(decline: Decline, culprit: Option<Culprit>) -> Failure {
    match culprit {
        Some(culprit) if culprit.decline() == decline => Failure::declined(decline, culprit),
        _ => decline.into(),
    }
}

impl From<Decline> for Failure {
    fn from(decline: Decline) -> Failure {
        Failure::of_decline(decline, None)
    }
}
