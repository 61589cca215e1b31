//! A JSON value on one line: RFC 8259, without line breaks or blanks.

use std::borrow::Cow;
use std::fmt::{self, Display, Formatter};

use crate::options::OptionSpec;

/// The option of a command that prints an object in place of its text. The command names the keys in its table.
pub const JSON: OptionSpec = OptionSpec::flag("--json", "prints one JSON object on one line");

/// A value. Numbers here are counts, places and words, none below 0.
#[derive(Debug, Clone, PartialEq, Eq)]
pub enum Json {
    Null,
    Bool(bool),
    Number(u64),
    Text(String),
    Array(Vec<Json>),
    Object(Vec<(Cow<'static, str>, Json)>),
}

/// An object of pairs in their order; no key stands twice.
pub fn object<const N: usize>(pairs: [(&'static str, Json); N]) -> Json {
    let pairs = pairs.map(|(key, value)| (key.into(), value));
    Json::Object(pairs.into())
}

impl Json {
    /// What a command prints: the value and a line feed.
    pub fn line(&self) -> Vec<u8> {
        format!("{self}\n").into()
    }

    /// The value of a key of an object.
    pub fn get(&self, key: &str) -> Option<&Json> {
        let Json::Object(pairs) = self else {
            return None;
        };
        let pair = pairs.iter().find(|(of, _)| of == key);
        pair.map(|(_, value)| value)
    }

    pub fn number(&self) -> Option<u64> {
        match self {
            Json::Number(number) => Some(*number),
            _ => None,
        }
    }

    pub fn text(&self) -> Option<&str> {
        match self {
            Json::Text(text) => Some(text),
            _ => None,
        }
    }

    pub fn array(&self) -> Option<&[Json]> {
        match self {
            Json::Array(values) => Some(values),
            _ => None,
        }
    }
}

impl Display for Json {
    fn fmt(&self, to: &mut Formatter) -> fmt::Result {
        match self {
            Json::Null => to.write_str("null"),
            Json::Bool(value) => write!(to, "{value}"),
            Json::Number(value) => write!(to, "{value}"),
            Json::Text(text) => write_text(to, text),
            Json::Array(values) => {
                let write = |to: &mut Formatter, value: &Json| write!(to, "{value}");
                write_list(to, ['[', ']'], values, write)
            }
            Json::Object(pairs) => write_list(to, ['{', '}'], pairs, |to, (key, value)| {
                write_text(to, key)?;
                write!(to, ":{value}")
            }),
        }
    }
}

/// Items between brackets, with commas between them.
fn write_list<T>(
    to: &mut Formatter,
    [open, close]: [char; 2],
    items: &[T],
    write: impl Fn(&mut Formatter, &T) -> fmt::Result,
) -> fmt::Result {
    write!(to, "{open}")?;
    for (number, item) in items.iter().enumerate() {
        if number > 0 {
            to.write_str(",")?;
        }
        write(to, item)?;
    }
    write!(to, "{close}")
}

/// "All Unicode characters may be placed within the quotation marks, except for the characters that MUST be escaped: quotation mark,
/// reverse solidus, and the control characters (U+0000 through U+001F)."
fn write_text(to: &mut Formatter, text: &str) -> fmt::Result {
    to.write_str("\"")?;
    for character in text.chars() {
        match character {
            '"' | '\\' => write!(to, "\\{character}")?,
            '\n' => to.write_str("\\n")?,
            '\u{0}'..='\u{1F}' => write!(to, "\\u{:04x}", u32::from(character))?,
            _ => write!(to, "{character}")?,
        }
    }
    to.write_str("\"")
}

impl From<bool> for Json {
    fn from(value: bool) -> Json {
        Json::Bool(value)
    }
}

impl From<u32> for Json {
    fn from(value: u32) -> Json {
        Json::Number(value.into())
    }
}

impl From<u64> for Json {
    fn from(value: u64) -> Json {
        Json::Number(value)
    }
}

impl From<usize> for Json {
    fn from(value: usize) -> Json {
        Json::Number(value as u64)
    }
}

impl From<&str> for Json {
    fn from(text: &str) -> Json {
        Json::Text(text.into())
    }
}

impl From<String> for Json {
    fn from(text: String) -> Json {
        Json::Text(text)
    }
}

impl<T: Into<Json>> From<Option<T>> for Json {
    /// Null where there is none.
    fn from(value: Option<T>) -> Json {
        value.map_or(Json::Null, T::into)
    }
}

impl<T: Into<Json>> From<Vec<T>> for Json {
    fn from(values: Vec<T>) -> Json {
        Json::Array(values.into_iter().map(T::into).collect())
    }
}

#[cfg(test)]
mod tests {
    use super::*;

    fn written(value: impl Into<Json>) -> String {
        value.into().to_string()
    }

    #[test]
    fn single_values() {
        assert_eq!(written(true), "true");
        assert_eq!(written(false), "false");
        assert_eq!(written(u32::MAX), "4294967295");
        assert_eq!(written(usize::MAX), "18446744073709551615");
        assert_eq!(written(None::<u32>), "null");
        assert_eq!(written(Some("x")), "\"x\"");
    }

    /// What must be escaped, and what need not be.
    #[test]
    fn texts() {
        assert_eq!(written(""), r#""""#);
        assert_eq!(written("a \"b\" \\ /"), r#""a \"b\" \\ /""#);
        assert_eq!(
            written("\0\t\n\r\u{1F} \u{7F}"),
            "\"\\u0000\\u0009\\n\\u000d\\u001f \u{7F}\""
        );
        assert_eq!(
            written(String::from("\u{e9}\u{1F6A7}")),
            "\"\u{e9}\u{1F6A7}\""
        );
    }

    #[test]
    fn lists_and_objects() {
        assert_eq!(written(Vec::<u32>::new()), "[]");
        assert_eq!(written(vec![1_u32, 2, 3]), "[1,2,3]");
        assert_eq!(written(object([])), "{}");
        let inner = object([("b", vec![true].into()), ("c \"", Json::Null)]);
        let outer = object([("a", 0_u32.into()), ("inner", inner)]);
        assert_eq!(
            written(outer.clone()),
            r#"{"a":0,"inner":{"b":[true],"c \"":null}}"#
        );
        assert_eq!(outer.line().last(), Some(&b'\n'));
    }
}
