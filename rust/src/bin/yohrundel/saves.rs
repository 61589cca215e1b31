//! The files that a command writes the banks of a sign to.

use std::ffi::OsStr;
use std::io::{self, IsTerminal};

use crate::arguments::Arguments;
use crate::failure::Failure;
use crate::files;
use crate::options::{OptionSpec, FILE};
use crate::sign::Sign;

/// The file that bank 1 is written to.
pub const SAVE1: OptionSpec = OptionSpec::value(
    "--save1",
    FILE,
    "writes bank 1 to FILE at the end, in the format that its name says; - is standard output, \
     which then gets the bank's words alone",
);

/// The file that bank 2 is written to.
pub const SAVE2: OptionSpec =
    OptionSpec::value("--save2", FILE, "writes bank 2 to FILE in the same way");

/// What the options --save1 and --save2 name.
pub struct Saves<'a>([Option<&'a OsStr>; 2]);

impl<'a> Saves<'a> {
    /// The options, of which one alone may name standard output, where that is no terminal.
    pub fn of(arguments: &Arguments<'a>) -> Result<Saves<'a>, Failure> {
        let paths = [arguments.value(&SAVE1), arguments.value(&SAVE2)];
        let piped = paths.iter().flatten().filter(|path| is_output(path));
        match piped.count() {
            0 => Ok(Saves(paths)),
            1 if io::stdout().is_terminal() => Err(Failure::arguments(
                "a bank is no text for a terminal: give the name of a file, or a pipe",
            )),
            1 => Ok(Saves(paths)),
            _ => Err(Failure::arguments("--save1 and --save2 are both -")),
        }
    }

    /// Writes the banks of a sign; gives the one that is to be printed in place of a text.
    pub fn write(&self, sign: &Sign) -> Result<Option<Vec<u8>>, Failure> {
        let mut printed = None;
        for (words, path) in sign.banks.iter().zip(self.0) {
            match path {
                Some(path) if is_output(path) => printed = Some(files::bank_bytes(words)),
                Some(path) => files::write_bank(sign.geometry, path, words)?,
                None => (),
            }
        }
        Ok(printed)
    }
}

/// Whether a name stands for standard output.
fn is_output(path: &OsStr) -> bool {
    path == "-"
}
