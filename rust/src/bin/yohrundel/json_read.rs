//! A reader of JSON lines that the command prints and reads again: RFC 8259, but for numbers that are not whole or below 0 and for
//! texts with an escape, which no such line has.

use crate::json::Json;

/// How deep lists and objects may stand in each other.
const DEEPEST: u32 = 64;

/// The value of a text; none where it is not one value.
pub fn read(text: &str) -> Option<Json> {
    let mut reader = Reader {
        rest: text,
        depth: 0,
    };
    let value = reader.value()?;
    reader.skip_blanks();
    reader.rest.is_empty().then_some(value)
}

struct Reader<'a> {
    rest: &'a str,
    depth: u32,
}

impl Reader<'_> {
    fn skip_blanks(&mut self) {
        self.rest = self.rest.trim_start_matches([' ', '\t', '\n', '\r']);
    }

    /// Takes a text where it is next, after any blanks.
    fn takes(&mut self, text: &str) -> bool {
        self.skip_blanks();
        let rest = self.rest.strip_prefix(text);
        self.rest = rest.unwrap_or(self.rest);
        rest.is_some()
    }

    fn value(&mut self) -> Option<Json> {
        if self.takes("null") {
            Some(Json::Null)
        } else if self.takes("true") {
            Some(Json::Bool(true))
        } else if self.takes("false") {
            Some(Json::Bool(false))
        } else if self.takes("\"") {
            self.text().map(Json::Text)
        } else if self.takes("[") {
            self.items("]", Reader::value).map(Json::Array)
        } else if self.takes("{") {
            self.items("}", Reader::pair).map(Json::Object)
        } else {
            self.number()
        }
    }

    /// What follows an opening bracket: items with commas between them, and the closing bracket.
    fn items<T>(&mut self, close: &str, item: fn(&mut Self) -> Option<T>) -> Option<Vec<T>> {
        let mut items = Vec::new();
        if self.takes(close) {
            return Some(items);
        }
        self.depth += 1;
        while self.depth <= DEEPEST {
            items.push(item(self)?);
            if self.takes(close) {
                self.depth -= 1;
                return Some(items);
            }
            self.takes(",").then_some(())?;
        }
        None
    }

    fn pair<K: From<String>>(&mut self) -> Option<(K, Json)> {
        self.takes("\"").then_some(())?;
        let key = self.text()?.into();
        self.takes(":").then_some(())?;
        Some((key, self.value()?))
    }

    /// Digits, of which the first is 0 alone.
    fn number(&mut self) -> Option<Json> {
        let end = self.rest.find(|letter: char| !letter.is_ascii_digit());
        let (digits, rest) = self.rest.split_at(end.unwrap_or(self.rest.len()));
        let has_leading_zero = digits.len() > 1 && digits.starts_with('0');
        let number = digits.parse().ok().filter(|_| !has_leading_zero)?;
        self.rest = rest;
        Some(Json::Number(number))
    }

    /// What follows an opening quotation mark.
    fn text(&mut self) -> Option<String> {
        let (text, rest) = self.rest.split_once('"')?;
        let is_plain = !text.contains(|letter| letter == '\\' || letter < ' ');
        self.rest = rest;
        is_plain.then(|| text.into())
    }
}

#[cfg(test)]
mod tests {
    use super::*;
    use crate::json::object;

    /// What is written is read again.
    #[test]
    fn written_values() {
        let inner = object([("b", vec![true, false].into()), ("", Json::Null)]);
        let value = object([
            ("a", u64::MAX.into()),
            ("texts", vec!["", "a, \u{e9}\u{1F6A7}/]}"].into()),
            ("inner", inner),
            ("none", Vec::<u32>::new().into()),
            ("zero", 0_u32.into()),
            ("object", object([])),
        ]);
        assert_eq!(read(&value.to_string()), Some(value.clone()));
        let line = String::from_utf8(value.line()).expect("text");
        assert_eq!(read(&line), Some(value));
    }

    #[test]
    fn blanks() {
        let text = " { \"a b\" : [ 1 , 2 ]\t,\r\n\"c\" : \" \" } ";
        let expected = object([("a b", vec![1_u32, 2].into()), ("c", " ".into())]);
        assert_eq!(read(text), Some(expected));
    }

    #[test]
    fn no_values() {
        for text in [
            "",
            " ",
            "{",
            "}",
            "[1",
            "[1,]",
            "[,1]",
            "[1 2]",
            "{\"a\"}",
            "{\"a\":}",
            "{a:1}",
            "{\"a\":1,}",
            "01",
            "-1",
            "1.5",
            "1e3",
            "nul",
            "\"a",
            "\"\t\"",
            "\"\\n\"",
            "1 2",
            "[1]]",
            "18446744073709551616",
            "'a'",
        ] {
            assert_eq!(read(text), None, "{text:?}");
        }
    }

    /// Brackets without end are refused before the stack is.
    #[test]
    fn depth() {
        let nested = |depth: usize| "[".repeat(depth) + &"]".repeat(depth);
        assert!(read(&nested(64)).is_some());
        assert_eq!(read(&nested(66)), None);
        assert_eq!(read(&"[".repeat(1_000_000)), None);
        assert!(read(&format!("[{},{}]", nested(60), nested(60))).is_some());
    }
}
