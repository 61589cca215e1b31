//! A reader of JSON, for what the command prints: RFC 8259, and no blanks between the tokens.

/// A value. Numbers that the command prints are whole and not below 0.
#[derive(Debug, Clone, PartialEq, Eq)]
pub enum Json {
    Null,
    Bool(bool),
    Number(u64),
    Text(String),
    Array(Vec<Json>),
    Object(Vec<(String, Json)>),
}

/// The value of a text that is one line.
pub fn read(text: &str) -> Option<Json> {
    let (value, rest) = value(text.strip_suffix('\n')?)?;
    rest.is_empty().then_some(value)
}

/// The value at the front of a text, and what follows it.
fn value(text: &str) -> Option<(Json, &str)> {
    for (word, value) in [
        ("null", Json::Null),
        ("true", Json::Bool(true)),
        ("false", Json::Bool(false)),
    ] {
        if let Some(rest) = text.strip_prefix(word) {
            return Some((value, rest));
        }
    }
    match text.chars().next()? {
        '"' => string(text).map(|(text, rest)| (Json::Text(text), rest)),
        '[' => {
            let (values, rest) = list(text, ['[', ']'], value)?;
            Some((Json::Array(values), rest))
        }
        '{' => {
            let (pairs, rest) = list(text, ['{', '}'], pair)?;
            Some((Json::Object(pairs), rest))
        }
        _ => number(text),
    }
}

/// Digits, of which the first is 0 alone.
fn number(text: &str) -> Option<(Json, &str)> {
    let end = text.find(|letter: char| !letter.is_ascii_digit());
    let (digits, rest) = text.split_at(end.unwrap_or(text.len()));
    let is_number = digits == "0" || !digits.starts_with('0');
    let number = digits.parse().ok().filter(|_| is_number)?;
    Some((Json::Number(number), rest))
}

fn string(text: &str) -> Option<(String, &str)> {
    let mut rest = text.strip_prefix('"')?.chars();
    let mut read = String::new();
    loop {
        match rest.next()? {
            '"' => return Some((read, rest.as_str())),
            '\\' => read.push(escaped(&mut rest)?),
            letter if letter < ' ' => return None,
            letter => read.push(letter),
        }
    }
}

/// What follows a reverse solidus.
fn escaped(rest: &mut std::str::Chars) -> Option<char> {
    Some(match rest.next()? {
        same @ ('"' | '\\' | '/') => same,
        'b' => '\u{8}',
        'f' => '\u{C}',
        'n' => '\n',
        'r' => '\r',
        't' => '\t',
        'u' => {
            let digits: String = rest.by_ref().take(4).collect();
            char::from_u32(u32::from_str_radix(&digits, 16).ok()?)?
        }
        _ => return None,
    })
}

fn pair(text: &str) -> Option<((String, Json), &str)> {
    let (key, rest) = string(text)?;
    let (value, rest) = value(rest.strip_prefix(':')?)?;
    Some(((key, value), rest))
}

/// Items between brackets, with commas between them.
fn list<T>(
    text: &str,
    [open, close]: [char; 2],
    item: fn(&str) -> Option<(T, &str)>,
) -> Option<(Vec<T>, &str)> {
    let mut rest = text.strip_prefix(open)?;
    let mut items = Vec::new();
    if let Some(rest) = rest.strip_prefix(close) {
        return Some((items, rest));
    }
    loop {
        let (value, after) = item(rest)?;
        items.push(value);
        match after.strip_prefix(',') {
            Some(after) => rest = after,
            None => return Some((items, after.strip_prefix(close)?)),
        }
    }
}

impl Json {
    /// The paths of all keys, in their order: of an object inside as `outer.inner`, of those in a list as `outer[].inner`, once.
    pub fn paths(&self) -> Vec<String> {
        let mut paths = Vec::new();
        self.put_paths("", &mut paths);
        paths
    }

    fn put_paths(&self, front: &str, paths: &mut Vec<String>) {
        match self {
            Json::Object(pairs) => {
                for (key, value) in pairs {
                    let dot = if front.is_empty() { "" } else { "." };
                    let path = format!("{front}{dot}{key}");
                    if !paths.contains(&path) {
                        paths.push(path.clone());
                    }
                    value.put_paths(&path, paths);
                }
            }
            Json::Array(values) => {
                let front = format!("{front}[]");
                values
                    .iter()
                    .for_each(|value| value.put_paths(&front, paths));
            }
            _ => {}
        }
    }
}

impl From<u32> for Json {
    fn from(number: u32) -> Json {
        Json::Number(number.into())
    }
}

impl From<&str> for Json {
    fn from(text: &str) -> Json {
        Json::Text(text.into())
    }
}

impl<T: Into<Json>> From<Option<T>> for Json {
    fn from(value: Option<T>) -> Json {
        value.map_or(Json::Null, T::into)
    }
}

#[test]
fn texts_that_are_read() {
    let text = r#"{"a":[],"b":{"c \"\\\/\n\u00e9":[null,true,false,0,120]},"d":"x"}"#;
    let inner = Json::Array(vec![
        Json::Null,
        Json::Bool(true),
        Json::Bool(false),
        Json::Number(0),
        Json::Number(120),
    ]);
    let expected = Json::Object(vec![
        ("a".into(), Json::Array(vec![])),
        (
            "b".into(),
            Json::Object(vec![("c \"\\/\n\u{e9}".into(), inner)]),
        ),
        ("d".into(), "x".into()),
    ]);
    assert_eq!(read(&format!("{text}\n")), Some(expected.clone()));
    assert_eq!(expected.paths(), ["a", "b", "b.c \"\\/\n\u{e9}", "d"]);
}

#[test]
fn texts_that_are_no_line_of_json() {
    for text in [
        "",
        "{}",
        "\n",
        "{}\n\n",
        "{} \n",
        "{\"a\"}\n",
        "{\"a\":1,}\n",
        "{a:1}\n",
        "[1 2]\n",
        "[1\n",
        "01\n",
        "-1\n",
        "\"\t\"\n",
        "\"\\x\"\n",
        "\"\\u00\"\n",
        "nul\n",
        "\"a\n",
        "[1]]\n",
    ] {
        assert_eq!(read(text), None, "{text:?}");
    }
}
