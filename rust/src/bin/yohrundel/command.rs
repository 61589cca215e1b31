//! A command: its tables, from which its help and its completion are made and its arguments are parsed, and how it is run.
//!
//! A new command is a file with a `COMMAND`, which `COMMANDS` in main.rs lists. Each of its options is a constant [`OptionSpec`], which its
//! table lists; `run` asks [`Arguments`] for what was given by the same constant. What is not in the table, is given twice or lacks its
//! value never gets to `run`. A command with `--json` has [`crate::json::JSON`] in its table and names the keys of its object.

use std::ffi::{OsStr, OsString};

use crate::arguments::Arguments;
use crate::failure::{Answer, Failure, ARGUMENTS};
use crate::help_text;
use crate::nearest::or_nearest;
use crate::options::{OptionSpec, HELP};
use crate::parse::{find, parse, END};

/// A command by its tables.
pub struct Command {
    pub name: &'static str,
    /// Its positional arguments by their names.
    pub arguments: &'static str,
    /// What completion offers for the first of them.
    pub first: First,
    /// What it does, in a few words.
    pub summary: &'static str,
    /// What its positional arguments are and what it prints.
    pub details: &'static str,
    /// Its options but for `--help`, which every command has.
    pub options: &'static [OptionSpec],
    /// The keys of the object that `--json` prints, each with what it says.
    pub keys: &'static [(&'static str, &'static str)],
    pub run: fn(Arguments) -> Answer,
}

/// What the first positional argument of a command may be.
pub enum First {
    /// A number, a time or the name of a file.
    Any,
    OneOf(&'static [&'static str]),
    /// The name of a command.
    Command,
}

impl Command {
    /// What is printed for its arguments.
    pub fn answer(&self, arguments: &[OsString]) -> Answer {
        let mut options = arguments.iter().take_while(|argument| *argument != END);
        if options.any(|argument| find(&[HELP], argument).is_some()) {
            return Ok(help_text::of_command(self).into());
        }
        let parsed = parse(&self.table(), arguments);
        let answer = parsed.and_then(self.run);
        answer.map_err(|failure| self.named(failure))
    }

    /// All its options.
    pub fn table(&self) -> Vec<OptionSpec> {
        [self.options, &[HELP]].concat()
    }

    /// Its name and what follows it.
    pub fn usage(&self) -> String {
        let options = match self.options {
            [] => "",
            _ => "[OPTION..]",
        };
        let parts = [self.name, self.arguments, options];
        let given: Vec<&str> = parts.into_iter().filter(|part| !part.is_empty()).collect();
        given.join(" ")
    }

    /// The failure with the command's name in front, where anything is said of it.
    fn named(&self, failure: Failure) -> Failure {
        if failure.reason.is_empty() {
            return failure;
        }
        let mut reason = format!("{}: {}", self.name, failure.reason);
        if failure.status == ARGUMENTS {
            reason += &format!("; try yohrundel {} --help", self.name);
        }
        Failure { reason, ..failure }
    }
}

/// The command of a name.
pub fn command(commands: &'static [Command], name: &OsStr) -> Result<&'static Command, Failure> {
    let command = commands.iter().find(|command| name == command.name);
    command.ok_or_else(|| {
        let names = commands.iter().map(|command| command.name);
        let reason = or_nearest(format!("there is no command {name:?}"), name, names);
        Failure::arguments(reason)
    })
}
