//! A reader of XML, for the drawings that the command writes: XML 1.0 without document types, comments and processing instructions.

/// An element.
#[derive(Debug, Clone, PartialEq, Eq)]
pub struct Element {
    pub name: String,
    attributes: Vec<(String, String)>,
    pub children: Vec<Element>,
    /// Its text, without that of its children.
    pub text: String,
}

impl Element {
    /// The value of an attribute.
    pub fn get(&self, name: &str) -> Option<&str> {
        let mut found = self.attributes.iter().filter(|(of, _)| of == name);
        found.next().map(|(_, value)| value.as_str())
    }

    /// The value of an attribute that is a number.
    pub fn number(&self, name: &str) -> f64 {
        let value = self.get(name).and_then(|value| value.parse().ok());
        value.unwrap_or_else(|| panic!("{name} of {self:?}"))
    }

    /// Whether it is of a class.
    pub fn is_of(&self, class: &str) -> bool {
        let classes = self.get("class").unwrap_or("");
        classes.split(' ').any(|of| of == class)
    }

    /// The element and all those inside it, in their order.
    pub fn all(&self) -> Vec<&Element> {
        let inside = self.children.iter().flat_map(Element::all);
        [self].into_iter().chain(inside).collect()
    }

    /// Those of a class among them.
    pub fn of_class(&self, class: &str) -> Vec<&Element> {
        let all = self.all().into_iter();
        all.filter(|element| element.is_of(class)).collect()
    }
}

/// The root element of a document that begins with a declaration and ends with a line feed.
pub fn read(document: &str) -> Option<Element> {
    let declaration = "<?xml version=\"1.0\" encoding=\"UTF-8\"?>\n";
    let (root, rest) = element(document.strip_prefix(declaration)?)?;
    (rest == "\n").then_some(root)
}

/// The element at the front of a text, and what follows it.
fn element(text: &str) -> Option<(Element, &str)> {
    let (name, mut rest) = name(text.strip_prefix('<')?)?;
    let mut read = Element {
        name: name.into(),
        attributes: Vec::new(),
        children: Vec::new(),
        text: String::new(),
    };
    while let Some(front) = rest.strip_prefix(' ') {
        let ((name, value), after) = attribute(front)?;
        if read.get(&name).is_some() {
            return None;
        }
        read.attributes.push((name, value));
        rest = after;
    }
    match rest.strip_prefix("/>") {
        Some(rest) => Some((read, rest)),
        None => content(read, rest.strip_prefix('>')?),
    }
}

/// The content of an element up to its end tag, and what follows that.
fn content(mut read: Element, mut rest: &str) -> Option<(Element, &str)> {
    loop {
        let (text, markup) = rest.split_at(rest.find('<')?);
        read.text += &unescaped(text)?;
        if let Some(end) = markup.strip_prefix("</") {
            let (name, rest) = name(end)?;
            let rest = rest.strip_prefix('>').filter(|_| name == read.name)?;
            return Some((read, rest));
        }
        let (child, after) = element(markup)?;
        read.children.push(child);
        rest = after;
    }
}

fn attribute(text: &str) -> Option<((String, String), &str)> {
    let (name, rest) = name(text)?;
    let (value, rest) = rest.strip_prefix("=\"")?.split_once('"')?;
    if value.contains('<') {
        return None;
    }
    Some(((name.into(), unescaped(value)?), rest))
}

/// A name at the front of a text: letters, hyphens and digits, of which the first is a letter.
fn name(text: &str) -> Option<(&str, &str)> {
    let is_part = |letter: char| letter.is_ascii_alphanumeric() || letter == '-';
    let end = text.find(|letter| !is_part(letter))?;
    let starts = text.starts_with(|letter: char| letter.is_ascii_alphabetic());
    starts.then(|| text.split_at(end))
}

/// A text without its entities.
fn unescaped(text: &str) -> Option<String> {
    let mut parts = text.split('&');
    let mut read = String::from(parts.next()?);
    for part in parts {
        let (entity, rest) = part.split_once(';')?;
        read.push(match entity {
            "amp" => '&',
            "lt" => '<',
            "gt" => '>',
            "quot" => '"',
            "apos" => '\'',
            _ => return None,
        });
        read += rest;
    }
    let is_character = |letter: char| letter >= ' ' || letter == '\n' || letter == '\t';
    read.chars().all(is_character).then_some(read)
}

fn document(root: &str) -> String {
    format!("<?xml version=\"1.0\" encoding=\"UTF-8\"?>\n{root}\n")
}

#[test]
fn documents_that_are_read() {
    let text = "<a b=\"1 &lt; 2\" c-d=\"\">x &amp; y\n<e1/><f class=\"g h\">z</f></a>";
    let root = read(&document(text)).expect("a document");
    assert_eq!((root.name.as_str(), root.text.as_str()), ("a", "x & y\n"));
    assert_eq!(root.get("b"), Some("1 < 2"));
    assert_eq!(root.get("c-d"), Some(""));
    assert_eq!(root.get("e"), None);
    let names: Vec<&str> = root.all().iter().map(|of| of.name.as_str()).collect();
    assert_eq!(names, ["a", "e1", "f"]);
    assert_eq!(root.of_class("h")[0].text, "z");
    assert!(root.of_class("g h").is_empty());
}

#[test]
fn documents_that_are_not_well_formed() {
    for text in [
        "",
        "x",
        "<a>",
        "<a></b>",
        "<a><b></a></b>",
        "<a/><b/>",
        "<a b=1/>",
        "<a b=\"1\" b=\"2\"/>",
        "<a b=\"1\"c=\"2\"/>",
        "<a b=\"<\"/>",
        "<a b=\"&\"/>",
        "<a>&</a>",
        "<a>&nbsp;</a>",
        "<a>\u{1}</a>",
        "<1/>",
        "<a/",
        "<a>x",
    ] {
        assert_eq!(read(&document(text)), None, "{text:?}");
    }
    assert_eq!(read("<a/>\n"), None);
    assert!(read(&document("<a/>")).is_some());
}
