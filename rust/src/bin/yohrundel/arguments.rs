//! The arguments of a command: the positional ones, taken one after another, and the options.

use std::collections::VecDeque;
use std::ffi::OsStr;
use std::mem;

use yohrundel::culprit::{size_clause, Culprit};
use yohrundel::Geometry;

use crate::failure::{explained, Failure};
use crate::options::OptionSpec;

/// What is given to a command, or to one part of it.
#[derive(Default)]
pub struct Arguments<'a> {
    pub positionals: VecDeque<&'a OsStr>,
    /// The names of the options that are given, with their values; one without a value has an empty one.
    pub options: Vec<(&'static str, &'a OsStr)>,
    /// The parts that options begin, each with its own arguments.
    further: Vec<Arguments<'a>>,
}

impl<'a> Arguments<'a> {
    /// The first part with those after it.
    pub fn of_parts(parts: Vec<Arguments<'a>>) -> Arguments<'a> {
        let mut parts = parts.into_iter();
        let first = parts.next().unwrap_or_default();
        Arguments {
            further: parts.collect(),
            ..first
        }
    }

    /// Takes the parts after the first.
    pub fn further_parts(&mut self) -> Vec<Arguments<'a>> {
        mem::take(&mut self.further)
    }

    /// Whether an option is given.
    pub fn is_given(&self, option: &OptionSpec) -> bool {
        self.values(option).next().is_some()
    }

    /// The value of an option, none where it is not given.
    pub fn value(&self, option: &OptionSpec) -> Option<&'a OsStr> {
        self.values(option).next()
    }

    /// The values of an option, one for each time that it is given.
    fn values(&self, option: &OptionSpec) -> impl Iterator<Item = &'a OsStr> + '_ {
        let name = option.name;
        let given = self.options.iter().filter(move |(of, _)| *of == name);
        given.map(|(_, value)| *value)
    }

    /// The values of an option as texts in a form, which the words name.
    pub fn value_forms<T>(
        &self,
        option: &OptionSpec,
        words: &str,
        read: fn(&str) -> Option<T>,
    ) -> Result<Vec<T>, Failure> {
        let name = format!("the value of {}", option.name);
        let values = self.values(option);
        values
            .map(|value| formed(value, &name, words, read))
            .collect()
    }

    /// The value of an option that may be given once, as text in a form.
    pub fn value_form<T>(
        &self,
        option: &OptionSpec,
        words: &str,
        read: fn(&str) -> Option<T>,
    ) -> Result<Option<T>, Failure> {
        Ok(self.value_forms(option, words, read)?.pop())
    }

    /// An option is not given together with any of some others.
    pub fn exclude(&self, option: &OptionSpec, others: &[OptionSpec]) -> Result<(), Failure> {
        let other = others.iter().find(|other| self.is_given(other));
        match other.filter(|_| self.is_given(option)) {
            Some(other) => {
                let names = format!("{} and {}", option.name, other.name);
                Err(Failure::arguments(format!("{names} exclude each other")))
            }
            None => Ok(()),
        }
    }

    /// The next positional argument, none at the end.
    pub fn optional(&mut self) -> Option<&'a OsStr> {
        self.positionals.pop_front()
    }

    /// The next positional argument, which has a name.
    pub fn required(&mut self, name: &str) -> Result<&'a OsStr, Failure> {
        let missing = || Failure::arguments(format!("{name} is missing"));
        self.optional().ok_or_else(missing)
    }

    /// The next positional argument as text in a form, which the words name.
    pub fn form<T>(
        &mut self,
        name: &str,
        words: &str,
        read: fn(&str) -> Option<T>,
    ) -> Result<T, Failure> {
        formed(self.required(name)?, name, words, read)
    }

    /// The next positional argument as a decimal number.
    pub fn number(&mut self, name: &str) -> Result<u32, Failure> {
        self.form(name, DECIMAL_WORDS, decimal)
    }

    /// Q, B and P.
    pub fn geometry(&mut self) -> Result<Geometry, Failure> {
        judged(Geometry {
            q: self.number("Q")?,
            b: self.number("B")?,
            p: self.number("P")?,
        })
    }

    /// There are no more positional arguments.
    pub fn end(&mut self) -> Result<(), Failure> {
        match self.optional() {
            Some(argument) => {
                let reason = format!("{argument:?} is one argument too many");
                Err(Failure::arguments(reason))
            }
            None => Ok(()),
        }
    }
}

/// Sizes that the library takes.
pub fn judged(geometry: Geometry) -> Result<Geometry, Failure> {
    let clause = || size_clause(geometry).map(Culprit::Geometry);
    let declined = |decline| explained(decline, clause());
    geometry.bank_words().map(|_| geometry).map_err(declined)
}

/// An argument as text in a form, which the words name.
pub fn formed<T>(
    argument: &OsStr,
    name: &str,
    words: &str,
    read: fn(&str) -> Option<T>,
) -> Result<T, Failure> {
    let wrong = || Failure::arguments(format!("{name} is {argument:?}, not {words}"));
    argument.to_str().and_then(read).ok_or_else(wrong)
}

/// What a decimal number may be.
pub const DECIMAL_WORDS: &str = "a number from 0 to 4294967295";

/// A decimal number of 32 bits.
pub fn decimal(text: &str) -> Option<u32> {
    text.parse().ok()
}

/// A word in one to eight hexadecimal digits, 0x before them or not.
pub fn hexadecimal(text: &str) -> Option<u32> {
    let digits = text.strip_prefix("0x").unwrap_or(text);
    if !digits.bytes().all(|digit| digit.is_ascii_hexdigit()) {
        return None;
    }
    u32::from_str_radix(digits, 16).ok()
}
