//! Elements of SVG: XML with numbers of at most two decimals.

use std::fmt::{self, Display, Formatter};

/// An element with its attributes and its content.
pub struct Element {
    name: &'static str,
    attributes: Vec<(&'static str, String)>,
    content: Vec<Content>,
}

enum Content {
    Element(Element),
    Text(String),
}

impl Element {
    pub fn new(name: &'static str) -> Element {
        Element {
            name,
            attributes: Vec::new(),
            content: Vec::new(),
        }
    }

    /// The element with one more attribute, whose name it does not have.
    pub fn set(mut self, name: &'static str, value: impl Display) -> Element {
        self.attributes.push((name, value.to_string()));
        self
    }

    /// The element with a length or a coordinate.
    pub fn number(self, name: &'static str, value: f64) -> Element {
        self.set(name, rounded(value))
    }

    /// The element with an element at the end of its content.
    pub fn with(mut self, element: Element) -> Element {
        self.content.push(Content::Element(element));
        self
    }

    /// The element with several elements at the end of its content.
    pub fn with_all(mut self, elements: impl IntoIterator<Item = Element>) -> Element {
        self.content
            .extend(elements.into_iter().map(Content::Element));
        self
    }

    /// The element with a text at the end of its content.
    pub fn text(mut self, text: impl Display) -> Element {
        self.content.push(Content::Text(text.to_string()));
        self
    }

    /// The element with a title, which a browser shows beside the pointer.
    pub fn titled(self, title: impl Display) -> Element {
        self.with(Element::new("title").text(title))
    }
}

impl Display for Element {
    fn fmt(&self, to: &mut Formatter) -> fmt::Result {
        let name = self.name;
        write!(to, "<{name}")?;
        for (attribute, value) in &self.attributes {
            write!(to, " {attribute}=\"{}\"", escaped(value))?;
        }
        if self.content.is_empty() {
            return to.write_str("/>");
        }
        to.write_str(">")?;
        for content in &self.content {
            match content {
                Content::Element(element) => write!(to, "\n{element}")?,
                Content::Text(text) => to.write_str(&escaped(text))?,
            }
        }
        write!(to, "</{name}>")
    }
}

/// A group of elements of a class.
pub fn group(class: &str) -> Element {
    Element::new("g").set("class", class)
}

/// Where a rectangle is and how large it is.
#[derive(Clone, Copy)]
pub struct Area {
    pub x: f64,
    pub y: f64,
    pub width: f64,
    pub height: f64,
}

/// A rectangle of a class.
pub fn rectangle(class: &str, area: Area) -> Element {
    Element::new("rect")
        .set("class", class)
        .number("x", area.x)
        .number("y", area.y)
        .number("width", area.width)
        .number("height", area.height)
}

/// A text of a class, whose baseline begins at a point.
pub fn text(class: &str, x: f64, y: f64, text: impl Display) -> Element {
    Element::new("text")
        .set("class", class)
        .number("x", x)
        .number("y", y)
        .text(text)
}

/// A number to two decimals.
pub fn rounded(value: f64) -> f64 {
    (value * 100.0).round() / 100.0
}

/// A text with entities for the characters of markup. A character that XML 1.0 does not have is replaced.
fn escaped(text: &str) -> String {
    let mut written = String::new();
    for character in text.chars() {
        match character {
            '&' => written += "&amp;",
            '<' => written += "&lt;",
            '>' => written += "&gt;",
            '"' => written += "&quot;",
            '\t' | '\n' | '\r' | ' '..='\u{FFFD}' | '\u{10000}'.. => written.push(character),
            _ => written.push('\u{FFFD}'),
        }
    }
    written
}

#[cfg(test)]
mod tests {
    use super::*;

    #[test]
    fn elements() {
        let element = Element::new("g").set("class", "a \"b\" & <c>");
        assert_eq!(
            element.to_string(),
            "<g class=\"a &quot;b&quot; &amp; &lt;c&gt;\"/>"
        );
        let element = element.with(Element::new("rect").number("x", 1.0 / 3.0));
        let element = element.with(Element::new("text").text("1 < 2 & 3"));
        assert_eq!(
            element.to_string(),
            "<g class=\"a &quot;b&quot; &amp; &lt;c&gt;\">\n<rect x=\"0.33\"/>\n\
             <text>1 &lt; 2 &amp; 3</text></g>"
        );
    }

    /// The characters of XML 1.0: tab, line feed, carriage return, and from the blank on all but U+FFFE and U+FFFF.
    #[test]
    fn characters() {
        let kept = "\t\n\r \u{7F}\u{D7FF}\u{E000}\u{FFFD}\u{10000}\u{10FFFF}";
        assert_eq!(escaped(kept), kept);
        for character in ['\0', '\u{8}', '\u{B}', '\u{1F}', '\u{FFFE}', '\u{FFFF}'] {
            assert_eq!(escaped(&character.to_string()), "\u{FFFD}");
        }
    }

    #[test]
    fn numbers() {
        let written = [2.0, 0.5, 1.005, 12.349, -0.25].map(|value| rounded(value).to_string());
        assert_eq!(written, ["2", "0.5", "1", "12.35", "-0.25"]);
    }
}
