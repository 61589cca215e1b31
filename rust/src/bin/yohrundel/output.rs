//! Where a command's work goes: to standard output, or to the file that the option -o names.

use std::ffi::OsStr;
use std::io::{self, IsTerminal};

use crate::arguments::Arguments;
use crate::failure::{Answer, Failure};
use crate::files;
use crate::options::{OptionSpec, FILE};

/// The option of a command that may write to a file.
pub const OUT: OptionSpec = OptionSpec::value("-o", FILE, "writes to FILE");

/// The file of a command's work, none for standard output.
pub struct Output<'a>(Option<&'a OsStr>);

impl<'a> Output<'a> {
    /// What -o says, or else standard output.
    pub fn of(arguments: &Arguments<'a>) -> Output<'a> {
        Output::given(arguments).unwrap_or(Output(None))
    }

    /// The file of -o, where it is given; `-` is standard output.
    pub fn given(arguments: &Arguments<'a>) -> Option<Output<'a>> {
        let path = arguments.value(&OUT)?;
        Some(Output(Some(path).filter(|path| *path != "-")))
    }

    /// Bytes that are no text do not go to a terminal.
    pub fn refuse_terminal(&self) -> Result<(), Failure> {
        if self.0.is_none() && io::stdout().is_terminal() {
            let reason = "a script is no text for a terminal: give -o FILE, or a pipe";
            return Err(Failure::arguments(reason));
        }
        Ok(())
    }

    /// What is printed: the work itself, or, where it goes to a file, a sentence about it.
    pub fn put(&self, work: Vec<u8>, sentence: String) -> Answer {
        match self.0 {
            Some(path) => {
                files::write(path, &work)?;
                Ok(sentence.into())
            }
            None => Ok(work),
        }
    }
}
