//! The command `yohrundel`: scripts, whole updates and updates that are cut, for people.

mod arguments;
mod bank_drawing;
mod bars;
mod causes;
mod command;
mod completion;
mod cut;
mod cut_arguments;
mod cut_leaves;
mod drawing;
mod erased;
mod failure;
mod files;
mod flash_windows;
mod given_sign;
mod help;
mod help_text;
mod hex_bank;
mod hex_records;
mod json;
mod json_read;
mod lanes;
mod lines;
mod nearest;
mod operation;
mod options;
mod output;
mod page_names;
mod page_state;
mod parse;
mod picture;
mod place_report;
mod places;
mod places_timeline;
mod plan;
mod play;
mod progress;
mod random;
mod reach;
mod records;
mod registers;
mod resets;
mod row;
mod row_drawing;
mod row_report;
mod row_signs;
mod saves;
mod script;
mod sheet;
mod sign;
mod sign_files;
mod sign_pages;
mod smallest;
mod start;
mod svg;
mod sweep;
mod sweep_cuts;
mod sweep_join;
mod sweep_line;
mod sweep_options;
mod sweep_places;
mod sweep_sign;
mod sweep_tally;
mod sweep_text;
mod sweep_threads;
mod timeline;
mod timeline_columns;
mod timeline_drawing;
mod times;
mod torn;
mod update;
mod update_actions;
mod why;
mod why_texts;
mod windows;
mod wording;

use std::env;
use std::ffi::OsString;
use std::io::{self, Write};
use std::process::ExitCode;
use std::slice;

use command::{command, Command};
use failure::{Answer, Failure};
use help_text::{GLOBAL, VERSION};
use options::HELP;
use parse::{is_option, parse};

/// The commands in the order of the help. Each has a file of its own.
const COMMANDS: &[Command] = &[
    play::COMMAND,
    script::COMMAND,
    smallest::COMMAND,
    start::COMMAND,
    update::COMMAND,
    cut::COMMAND,
    places::COMMAND,
    sweep::COMMAND,
    row::COMMAND,
    reach::COMMAND,
    plan::COMMAND,
    lanes::COMMAND,
    sheet::COMMAND,
    why::COMMAND,
    help::COMMAND,
    completion::COMMAND,
];

fn main() -> ExitCode {
    let arguments: Vec<OsString> = env::args_os().skip(1).collect();
    match answer(&arguments).and_then(|output| print(&output)) {
        Ok(()) => ExitCode::SUCCESS,
        Err(failure) => fail(failure),
    }
}

/// What is printed for the arguments.
fn answer(arguments: &[OsString]) -> Answer {
    match arguments {
        [name, rest @ ..] if !is_option(name) => {
            let command = command(COMMANDS, name).map_err(with_help)?;
            command.answer(rest)
        }
        [option, ..] => global(slice::from_ref(option)).map_err(with_help),
        [] => global(&[]).map_err(with_help),
    }
}

/// What is printed for an option in place of a command.
fn global(arguments: &[OsString]) -> Answer {
    let given = parse(&GLOBAL, arguments)?;
    if given.is_given(&VERSION) {
        Ok(help_text::version().into())
    } else if given.is_given(&HELP) {
        Ok(help_text::of_all(COMMANDS).into())
    } else {
        Err(Failure::arguments("COMMAND is missing"))
    }
}

/// A failure with where to read on.
fn with_help(failure: Failure) -> Failure {
    let reason = format!("{}; try yohrundel --help", failure.reason);
    Failure { reason, ..failure }
}

/// Writes to standard output.
fn print(output: &[u8]) -> Result<(), Failure> {
    let mut out = io::stdout().lock();
    let written = out.write_all(output).and_then(|()| out.flush());
    written.map_err(Failure::output)
}

fn fail(failure: Failure) -> ExitCode {
    // The failure is told by its reason and its status, whatever becomes of its output.
    let _ = print(&failure.output);
    if !failure.reason.is_empty() {
        let _ = writeln!(io::stderr(), "yohrundel: {}", failure.reason);
    }
    ExitCode::from(failure.status)
}
