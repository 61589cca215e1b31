//! `yohrundel script`: an update as a service script, and scripts as text.

use std::ffi::OsStr;

use crate::arguments::Arguments;
use crate::causes::{malformed, written};
use crate::command::{Command, First};
use crate::failure::{Answer, Failure};
use crate::files;
use crate::given_sign::GivenSign;
use crate::options::{OptionSpec, FILE};
use crate::output::{Output, OUT};
use crate::records::{line, record, RECORD};
use crate::registers::REGISTER;
use crate::sign::Sign;
use crate::sign_files::{BANK1, BANK2};
use crate::wording::counted;

pub const COMMAND: Command = Command {
    name: "script",
    arguments: "Q B P [IMAGE]",
    first: First::Any,
    summary: "writes an update as a service script",
    details: "\
Q, B, P, IMAGE and the sign are as for yohrundel update. It writes the update as
a service script, a record for each action, to standard output, but never to a
terminal. On the same sign the play of the script is the update, record by
record: what holds where the supply fails during an update, holds during the
play. What is written depends on the sizes, the image and the sequence number of
the bank that runs alone, and serves every sign of these sizes with this
sequence number that accepts the update. A play checks nothing of this: on any
other sign nothing is promised of it.

yohrundel script --list FILE prints a script as text, a record a line:
  store REGISTER FORM VALUE  such as store NVMCON set 0x00004000
  step
  reset KIND                 KIND is power-on, brown-out or other
REGISTER is NVMCON, NVMKEY, NVMADDR, NVMDATA0 to 3, NVMSRCADDR, NVMPWP, NVMBWP
or NVMCON2, FORM is plain, clear, set or invert, VALUE a hexadecimal word.
yohrundel script --make FILE makes the script of such a text. What follows a #
in it is a comment, and a line may be blank. FILE may be - for standard input.",
    options: &[BANK1, BANK2, REGISTER, WORK, LIST, MAKE],
    keys: &[],
    run,
};

const WORK: OptionSpec =
    OUT.explained("writes to FILE, and says how long the script is and what it is for");

const LIST: OptionSpec = OptionSpec::value(
    "--list",
    FILE,
    "prints a script as text, in place of an update",
);

const MAKE: OptionSpec = OptionSpec::value(
    "--make",
    FILE,
    "makes the script of such a text, in place of an update",
);

fn run(mut arguments: Arguments) -> Answer {
    let output = Output::of(&arguments);
    arguments.exclude(&LIST, &[MAKE, BANK1, BANK2, REGISTER])?;
    arguments.exclude(&MAKE, &[BANK1, BANK2, REGISTER])?;
    let (listed, made) = (arguments.value(&LIST), arguments.value(&MAKE));
    if let Some(path) = listed {
        arguments.end()?;
        list(path, &output)
    } else if let Some(path) = made {
        arguments.end()?;
        make(path, &output)
    } else {
        write(arguments, &output)
    }
}

/// Writes an update.
fn write(mut arguments: Arguments, output: &Output) -> Answer {
    let given = GivenSign::of(&arguments)?;
    let geometry = arguments.geometry()?;
    let image = arguments.optional();
    arguments.end()?;
    output.refuse_terminal()?;
    let sign = given.sign(geometry, image)?;
    let (script, number) = (written(&sign)?, sign.sequence_number()?);
    let said = format!(
        "{}It serves signs of these sizes that run with the sequence number {number} and accept\n\
         the update.\n",
        length(&script)
    );
    output.put(script, said)
}

fn length(script: &[u8]) -> String {
    let records = counted(script.len() / RECORD, "record");
    let bytes = counted(script.len(), "byte");
    format!("The script has {records} in {bytes}.\n")
}

/// A script as text.
fn list(path: &OsStr, output: &Output) -> Answer {
    let script = files::bytes(path, usize::MAX)?;
    let played = Sign::bench()?.play_length(&script);
    let lines = script
        .chunks(RECORD)
        .map(|record| Some(line(record)? + "\n"));
    match lines.collect::<Option<String>>() {
        Some(text) if played.is_ok() => output.put(text.into(), length(&script)),
        _ => Err(malformed(&script)),
    }
}

/// The script of a text.
fn make(path: &OsStr, output: &Output) -> Answer {
    output.refuse_terminal()?;
    let text = files::bytes(path, usize::MAX)?;
    let mut records = Vec::new();
    for (number, line) in (1..).zip(text.split(|byte| *byte == b'\n')) {
        let wrong = |reason| Failure::line(path, number, reason);
        records.extend(record(&String::from_utf8_lossy(line)).map_err(wrong)?);
    }
    let script = records.concat();
    let said = length(&script);
    output.put(script, said)
}
