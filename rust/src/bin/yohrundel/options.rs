//! The options of a command as rows of its table. Parsing, help and completion are made from this table.

/// An option: a row of the table of a command. A command asks for what was given by the row itself.
#[derive(Clone, Copy)]
pub struct OptionSpec {
    /// As it is written, with its hyphens.
    pub name: &'static str,
    /// Another name, most often a letter.
    pub alias: Option<&'static str>,
    pub takes: Takes,
    /// Whether it may be given several times.
    pub repeats: bool,
    /// Whether it is of the part of the arguments that it stands in, and not of the whole command.
    pub of_part: bool,
    /// What it does, without line breaks.
    pub help: &'static str,
}

/// What follows the name of an option.
#[derive(Clone, Copy)]
pub enum Takes {
    Nothing,
    /// A value, by its name in the help. One that is named [`FILE`] is the name of a file.
    Value(&'static str),
    /// Another part of the arguments, by their names in the help, with its own of the options that are of a part.
    Part(&'static str),
}

/// The name of a value that is the name of a file.
pub const FILE: &str = "FILE";

/// The option of every command.
pub const HELP: OptionSpec = OptionSpec::flag("--help", "prints this help").or("-h");

impl OptionSpec {
    /// An option without a value.
    pub const fn flag(name: &'static str, help: &'static str) -> OptionSpec {
        OptionSpec {
            name,
            alias: None,
            takes: Takes::Nothing,
            repeats: false,
            of_part: false,
            help,
        }
    }

    /// An option with a value, whose name stands in the help.
    pub const fn value(name: &'static str, value: &'static str, help: &'static str) -> OptionSpec {
        OptionSpec {
            takes: Takes::Value(value),
            ..OptionSpec::flag(name, help)
        }
    }

    /// An option that begins another part of the arguments.
    pub const fn part(name: &'static str, part: &'static str, help: &'static str) -> OptionSpec {
        OptionSpec {
            takes: Takes::Part(part),
            repeats: true,
            ..OptionSpec::flag(name, help)
        }
    }

    /// The option with another name beside its own.
    pub const fn or(self, alias: &'static str) -> OptionSpec {
        OptionSpec {
            alias: Some(alias),
            ..self
        }
    }

    /// The option as one that may be given several times.
    pub const fn several(self) -> OptionSpec {
        OptionSpec {
            repeats: true,
            ..self
        }
    }

    /// The option as one of the part that it stands in alone.
    pub const fn in_part(self) -> OptionSpec {
        OptionSpec {
            of_part: true,
            ..self
        }
    }

    /// The option with other words in the help, for a command that uses it in its own way.
    pub const fn explained(self, help: &'static str) -> OptionSpec {
        OptionSpec { help, ..self }
    }

    /// Its name, and its other one where it has one.
    pub fn names(&self) -> impl Iterator<Item = &'static str> {
        [Some(self.name), self.alias].into_iter().flatten()
    }

    /// Its names and what it takes, as the help has them.
    pub fn usage(&self) -> String {
        let names: Vec<&str> = self.names().collect();
        let names = names.join(", ");
        match self.takes {
            Takes::Nothing => names,
            Takes::Value(value) | Takes::Part(value) => format!("{names} {value}"),
        }
    }

    /// Whether a value follows it.
    pub fn takes_value(&self) -> bool {
        matches!(self.takes, Takes::Value(_))
    }

    /// Whether its value is the name of a file.
    pub fn takes_file(&self) -> bool {
        matches!(self.takes, Takes::Value(FILE))
    }
}
