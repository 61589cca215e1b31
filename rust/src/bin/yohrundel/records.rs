//! Records of a service script as text, a line each.

use std::fmt::{self, Display, Formatter};
use std::str::SplitWhitespace;

use yohrundel::form::{CLEAR, INVERT, PLAIN, SET};
use yohrundel::register;

use crate::arguments::hexadecimal;
use crate::resets::{kind_name, read_kind, KIND_WORDS};

/// The bytes of a record.
pub const RECORD: usize = 8;

/// The kinds of records.
const STORE: u8 = 0;
const STEP: u8 = 1;
const RESET: u8 = 2;

/// A name and the number that a record has for it.
pub type Named = (&'static str, u32);

const FORMS: [Named; 4] = [
    ("plain", PLAIN),
    ("clear", CLEAR),
    ("set", SET),
    ("invert", INVERT),
];

/// What a record says. It is printed as its line, without a line feed.
#[derive(Clone, Copy)]
pub enum Record {
    Store {
        register: Named,
        form: Named,
        value: u32,
    },
    Step,
    /// By the name of its kind.
    Reset(&'static str),
}

impl Display for Record {
    fn fmt(&self, to: &mut Formatter) -> fmt::Result {
        match self {
            Record::Store {
                register: (register, _),
                form: (form, _),
                value,
            } => write!(to, "store {register} {form} 0x{value:08X}"),
            Record::Step => to.write_str("step"),
            Record::Reset(kind) => write!(to, "reset {kind}"),
        }
    }
}

/// Reads a record; none for what the library takes for no record.
pub fn read(record: &[u8]) -> Option<Record> {
    let [kind, second, form, _, value @ ..] = <[u8; RECORD]>::try_from(record).ok()?;
    match kind {
        STORE => Some(Record::Store {
            register: (register_name(second.into())?, second.into()),
            form: named(&FORMS, form)?,
            value: u32::from_le_bytes(value),
        }),
        STEP => Some(Record::Step),
        RESET => kind_name(second.into()).map(Record::Reset),
        _ => None,
    }
}

/// The line of a record, without a line feed; none for what the library takes for no record.
pub fn line(record: &[u8]) -> Option<String> {
    read(record).map(|record| record.to_string())
}

/// The name of a register.
pub fn register_name(number: u32) -> Option<&'static str> {
    register::NAMES.get(number as usize).copied()
}

/// The number of a register.
pub fn register_number(word: &str) -> Option<u32> {
    let number = register::NAMES.iter().position(|name| *name == word);
    number.map(|number| number as u32)
}

fn named(all: &[Named], number: u8) -> Option<Named> {
    let mut all = all.iter().copied();
    all.find(|(_, of)| *of == u32::from(number))
}

/// The record of a line, none where it is blank or has a comment alone, or why it is neither.
pub fn record(line: &str) -> Result<Option<[u8; RECORD]>, String> {
    let (line, _) = line.split_once('#').unwrap_or((line, ""));
    let mut words = line.split_whitespace();
    let record = match words.next() {
        None => return Ok(None),
        Some("store") => store(&mut words)?,
        Some("step") => bytes(STEP, 0, 0, 0),
        Some("reset") => {
            let kind = form(&mut words, "the kind", KIND_WORDS, read_kind)?;
            bytes(RESET, kind.number, 0, 0)
        }
        Some(other) => return Err(format!("{other:?} is not store, step or reset")),
    };
    match words.next() {
        Some(word) => Err(format!("{word:?} is one word too many")),
        None => Ok(Some(record)),
    }
}

fn store(words: &mut SplitWhitespace) -> Result<[u8; RECORD], String> {
    let names = "NVMCON, NVMKEY, NVMADDR, NVMDATA0 to 3, NVMSRCADDR, NVMPWP, NVMBWP or NVMCON2";
    let register = form(words, "the register", names, register_number)?;
    let names = "plain, clear, set or invert";
    let stored = form(words, "the form", names, |word| number(&FORMS, word))?;
    let value = form(words, "the value", "a hexadecimal word", hexadecimal)?;
    Ok(bytes(STORE, register, stored, value))
}

fn number(all: &[Named], word: &str) -> Option<u32> {
    let named = all.iter().find(|(name, _)| *name == word);
    named.map(|(_, number)| *number)
}

/// The next word in a form, which some words name.
fn form<T>(
    words: &mut SplitWhitespace,
    name: &str,
    of: &str,
    read: fn(&str) -> Option<T>,
) -> Result<T, String> {
    let word = words.next().ok_or_else(|| format!("{name} is missing"))?;
    read(word).ok_or_else(|| format!("{name} is {word:?}, not {of}"))
}

/// "kind, register or reset kind, form, 0, value little-endian". The numbers here are below 256.
fn bytes(kind: u8, second: u32, form: u32, value: u32) -> [u8; RECORD] {
    let [first, low, middle, high] = value.to_le_bytes();
    [kind, second as u8, form as u8, 0, first, low, middle, high]
}
