//! Arguments parted into options and positional ones, by the table of a command.

use std::ffi::{OsStr, OsString};
use std::mem;
use std::os::unix::ffi::OsStrExt;
use std::slice::Iter;

use crate::arguments::Arguments;
use crate::failure::Failure;
use crate::nearest::or_nearest;
use crate::options::{OptionSpec, Takes};

/// What ends the options: every argument after it is positional.
pub const END: &str = "--";

/// Takes the options out of the arguments, wherever they stand.
pub fn parse<'a>(
    table: &[OptionSpec],
    arguments: &'a [OsString],
) -> Result<Arguments<'a>, Failure> {
    let mut parser = Parser {
        table,
        rest: arguments.iter(),
        part: Arguments::default(),
        parts: Vec::new(),
    };
    while let Some(argument) = parser.rest.next() {
        parser.take(argument)?;
    }
    parser.parts.push(parser.part);
    Ok(Arguments::of_parts(parser.parts))
}

struct Parser<'a, 't> {
    table: &'t [OptionSpec],
    rest: Iter<'a, OsString>,
    /// The part that is being taken, and those before it.
    part: Arguments<'a>,
    parts: Vec<Arguments<'a>>,
}

impl<'a> Parser<'a, '_> {
    fn take(&mut self, argument: &'a OsStr) -> Result<(), Failure> {
        if argument == END {
            let rest = self.rest.by_ref().map(OsString::as_os_str);
            self.part.positionals.extend(rest);
        } else if is_option(argument) {
            return self.take_option(argument);
        } else {
            self.part.positionals.push_back(argument);
        }
        Ok(())
    }

    fn take_option(&mut self, argument: &'a OsStr) -> Result<(), Failure> {
        let (option, attached) = named(self.table, argument)?;
        let name = option.name;
        match (option.takes, attached) {
            (Takes::Value(_), _) => {
                let missing = || Failure::arguments(format!("the value of {name} is missing"));
                let value = attached.or_else(|| self.next_value());
                self.give(option, value.ok_or_else(missing)?)
            }
            (_, Some(_)) => Err(Failure::arguments(format!("{name} takes no value"))),
            (Takes::Nothing, None) => self.give(option, OsStr::new("")),
            (Takes::Part(_), None) => {
                self.parts.push(mem::take(&mut self.part));
                Ok(())
            }
        }
    }

    /// The next argument, but for one that is an option of the table or ends them.
    fn next_value(&mut self) -> Option<&'a OsStr> {
        let next = self.rest.as_slice().first()?;
        if next == END || find(self.table, next).is_some() {
            return None;
        }
        self.rest.next().map(OsString::as_os_str)
    }

    /// Puts an option into the part that is being taken, or into the first where it is of the whole command.
    fn give(&mut self, option: OptionSpec, value: &'a OsStr) -> Result<(), Failure> {
        let part = match self.parts.first_mut() {
            Some(first) if !option.of_part => first,
            _ => &mut self.part,
        };
        if !option.repeats && part.is_given(&option) {
            let reason = format!("{} is given twice", option.name);
            return Err(Failure::arguments(reason));
        }
        part.options.push((option.name, value));
        Ok(())
    }
}

/// Whether an argument is read as an option: it begins with a hyphen and is not `-` alone, which stands for standard input.
pub fn is_option(argument: &OsStr) -> bool {
    let bytes = argument.as_bytes();
    bytes.starts_with(b"-") && bytes != b"-"
}

/// The option of a table by one of its names.
pub fn find(table: &[OptionSpec], name: &OsStr) -> Option<OptionSpec> {
    let is_meant = |option: &&OptionSpec| option.names().any(|of| name == of);
    table.iter().find(is_meant).copied()
}

/// The option that an argument names, and the value that is attached to it.
pub fn named<'a>(
    table: &[OptionSpec],
    argument: &'a OsStr,
) -> Result<(OptionSpec, Option<&'a OsStr>), Failure> {
    if let Some(option) = find(table, argument) {
        return Ok((option, None));
    }
    let (name, value) = parted(argument);
    if let (Some(option), Some(value)) = (find(table, name), value) {
        return Ok((option, Some(value)));
    }
    with_letter(table, argument).ok_or_else(|| unknown(table, name))
}

/// A name and a value with `=` between them, or a name alone.
fn parted(argument: &OsStr) -> (&OsStr, Option<&OsStr>) {
    let bytes = argument.as_bytes();
    match bytes.iter().position(|byte| *byte == b'=') {
        Some(at) => (
            OsStr::from_bytes(&bytes[..at]),
            Some(OsStr::from_bytes(&bytes[at + 1..])),
        ),
        None => (argument, None),
    }
}

/// An option of a hyphen and a letter with its value directly behind it.
fn with_letter<'a>(
    table: &[OptionSpec],
    argument: &'a OsStr,
) -> Option<(OptionSpec, Option<&'a OsStr>)> {
    let (name, value) = argument.as_bytes().split_at_checked(2)?;
    let option = find(table, OsStr::from_bytes(name))?;
    let value = Some(OsStr::from_bytes(value));
    option.takes_value().then_some((option, value))
}

/// The failure of an argument that names no option of the table.
fn unknown(table: &[OptionSpec], name: &OsStr) -> Failure {
    let names = table.iter().flat_map(OptionSpec::names);
    let reason = or_nearest(format!("there is no option {name:?}"), name, names);
    Failure::arguments(reason)
}
