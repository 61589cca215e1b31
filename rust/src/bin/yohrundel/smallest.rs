//! `yohrundel smallest`: the smallest script that shows a decline number.

use yohrundel::Geometry;

use crate::arguments::Arguments;
use crate::causes::reduced;
use crate::command::{Command, First};
use crate::failure::{Answer, Failure};
use crate::files;
use crate::options::OptionSpec;
use crate::output::{Output, OUT};
use crate::records::{line, RECORD};
use crate::sign::Sign;
use crate::sign_files::{sizes, BankFiles, BANK1, BANK2, SIZES};
use crate::wording::counted;

pub const COMMAND: Command = Command {
    name: "smallest",
    arguments: "FILE NUMBER",
    first: First::Any,
    summary: "finds the records that a refusal needs",
    details: "\
FILE is a service script of at most 64 records; - is standard input. NUMBER says
why a record of its play is refused: 4, 5 or 6. It drops the lowest record
without which the play still gives NUMBER, begins again from the top, and stops
when none can go. It prints how many records of how many are left, and these
records as yohrundel script --list does, each with its number in FILE, from 0,
as a comment, where several are equal that of the last. yohrundel script --make
takes this text.
The play of these records gives NUMBER, and without any one of them it does not.
Fewer may give it too: two records that undo each other both stay where one of
them alone would hide NUMBER.
The play is that of yohrundel play, on its sign where no option names another.",
    options: &[SIZES, BANK1, BANK2, SCRIPT],
    keys: &[],
    run,
};

const SCRIPT: OptionSpec = OUT.explained("writes the records that are left as a script, too");

fn run(mut arguments: Arguments) -> Answer {
    let output = Output::given(&arguments);
    let (sizes, banks) = (sizes(&arguments)?, BankFiles::of(&arguments)?);
    if banks.are_given() && sizes.is_none() {
        return Err(Failure::arguments("banks need --sizes"));
    }
    let path = arguments.required("FILE")?;
    let number = arguments.number("NUMBER")?;
    arguments.end()?;
    if let Some(output) = &output {
        output.refuse_terminal()?;
    }
    let sign = sign(sizes, &banks)?;
    let script = files::bytes(path, usize::MAX)?;
    let result = reduced(&sign, &script, number)?;
    let text = report(&script, &result, number);
    match output {
        Some(output) => output.put(result, text),
        None => Ok(text.into()),
    }
}

/// A sign of given sizes, or the bench of the service scripts.
fn sign(sizes: Option<Geometry>, banks: &BankFiles) -> Result<Sign, Failure> {
    match sizes {
        Some(geometry) => banks.sign(geometry, None),
        None => Ok(Sign::bench()?),
    }
}

/// What is left of a script, as a text that `script --make` takes.
fn report(script: &[u8], result: &[u8], number: u32) -> String {
    let (left, all) = (result.len() / RECORD, script.len() / RECORD);
    let sentence = match left {
        1 => "is left. Its play gives NUMBER.",
        _ => "are left. Their play gives NUMBER; without any one it does not.",
    };
    let sentence = sentence.replace("NUMBER", &number.to_string());
    let all = counted(all, "record");
    let mut text = format!("# {left} of {all} {sentence}\n");
    let lines: Vec<String> = result.chunks(RECORD).filter_map(line).collect();
    let width = lines.iter().map(String::len).max().unwrap_or(0);
    for (line, number) in lines.iter().zip(places(script, result)) {
        text += &format!("{line:width$}  # record {number}\n");
    }
    text
}

/// Where the records of the result stand in the script. Where equal records fit it is the last, as the lowest are dropped first; with any of
/// them it is the same script.
fn places(script: &[u8], result: &[u8]) -> Vec<usize> {
    let mut left: Vec<&[u8]> = result.chunks(RECORD).collect();
    let mut places = Vec::new();
    for (number, record) in script.chunks(RECORD).enumerate().rev() {
        if left.last() == Some(&record) {
            left.pop();
            places.push(number);
        }
    }
    places.reverse();
    places
}
