//! `yohrundel help`: what `--help` prints, of one command or of all.

use crate::arguments::Arguments;
use crate::command::{command, Command, First};
use crate::failure::Answer;
use crate::help_text;
use crate::COMMANDS;

pub const COMMAND: Command = Command {
    name: "help",
    arguments: "[COMMAND]",
    first: First::Command,
    summary: "says more of a command",
    details: "\
COMMAND is the name of a command. It prints what yohrundel COMMAND --help
prints. Without COMMAND it prints what yohrundel --help prints.",
    options: &[],
    keys: &[],
    run,
};

fn run(mut arguments: Arguments) -> Answer {
    let name = arguments.optional();
    arguments.end()?;
    let text = match name {
        Some(name) => help_text::of_command(command(COMMANDS, name)?),
        None => help_text::of_all(COMMANDS),
    };
    Ok(text.into())
}
