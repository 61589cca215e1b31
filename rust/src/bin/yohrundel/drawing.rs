//! A drawing in SVG that grows downwards: its frame, its texts, its legends and its colours.

use std::ffi::OsStr;

use yohrundel::Geometry;

use crate::failure::Failure;
use crate::files;
use crate::options::{OptionSpec, FILE};
use crate::page_state::PageState;
use crate::svg::{group, rectangle, rounded, text, Area, Element};

/// The option of a command that makes a drawing, which says what is drawn.
pub const SVG: OptionSpec = OptionSpec::value("--svg", FILE, "draws as SVG into FILE");

/// The width of a drawing in pixels.
pub const WIDTH: f64 = 1000.0;

/// What stays free at each edge.
pub const MARGIN: f64 = 24.0;

/// The colour of each class. What stands for pages, and what stands for the states of a sign, also differs in brightness.
const COLOURS: [(&str, &str); 11] = [
    ("background", "#ffffff"),
    ("old", "#a8bdd9"),
    ("blank", "#ffffff"),
    ("partly", "#e0701a"),
    ("new", "#0a4d3a"),
    ("protected", "#444444"),
    ("runs", "#111111"),
    ("waits", "#8c1515"),
    ("works", "#4f8fc7"),
    ("between", "#d9e0e8"),
    ("done", "#ffffff"),
];

/// Fonts that every viewer has, and outlines.
const STYLE: &str = "
text { font: 13px sans-serif; fill: #222222; }
.title { font: bold 20px sans-serif; }
.heading { font: bold 15px sans-serif; }
.strong { font-weight: bold; }
.small { font-size: 11px; fill: #555555; }
.middle { text-anchor: middle; }
.end { text-anchor: end; }
.frame { fill: none; }
.frame, .old, .blank, .partly, .new, .done { stroke: #777777; stroke-width: 0.5; }
.limit { stroke: #111111; stroke-dasharray: 4 3; }
";

/// The class of a page.
pub fn page_class(state: PageState) -> &'static str {
    match state {
        PageState::Old => "old",
        PageState::Blank => "blank",
        PageState::Partly => "partly",
        PageState::New => "new",
    }
}

/// The classes of pages with what they mean.
pub fn page_classes() -> Vec<(&'static str, &'static str)> {
    let classes = PageState::ALL.map(|state| (page_class(state), state.name()));
    classes.into()
}

/// The sizes of a sign in words.
pub fn sizes_text(Geometry { q, b, p }: Geometry) -> String {
    format!("Q = {q}, B = {b} and P = {p}")
}

/// A drawing that is not finished.
pub struct Drawing {
    title: String,
    description: String,
    /// Where the next part begins.
    pub y: f64,
    parts: Vec<Element>,
}

impl Drawing {
    /// A drawing with a title.
    pub fn new(title: impl Into<String>) -> Drawing {
        let title = title.into();
        let mut drawing = Drawing {
            description: String::new(),
            y: MARGIN,
            parts: Vec::new(),
            title: title.clone(),
        };
        drawing.text("title", &title, 28.0);
        drawing
    }

    /// What a reader who does not see the drawing is told.
    pub fn describe(&mut self, sentence: &str) {
        if !self.description.is_empty() {
            self.description += " ";
        }
        self.description += sentence;
    }

    /// A heading, after some space.
    pub fn heading(&mut self, heading: &str) {
        self.y += 18.0;
        self.text("heading", heading, 22.0);
    }

    /// A text, line by line; one that ends with a colon goes on with the next.
    pub fn lines(&mut self, text: &str) {
        for line in text.replace(":\n", ": ").lines() {
            self.text("line", line, 18.0);
        }
    }

    fn text(&mut self, class: &str, line: &str, height: f64) {
        let baseline = self.y + height - 8.0;
        self.put(text(class, MARGIN, baseline, line), height);
    }

    /// A part of some height.
    pub fn put(&mut self, part: Element, height: f64) {
        self.parts.push(part);
        self.y += height;
    }

    /// What some classes mean, side by side.
    pub fn legend(&mut self, classes: &[(&str, &str)]) {
        let (mut legend, mut x, y) = (group("legend"), MARGIN, self.y + 10.0);
        for (class, meaning) in classes {
            let area = Area {
                x,
                y,
                width: 14.0,
                height: 14.0,
            };
            legend =
                legend
                    .with(rectangle(class, area))
                    .with(text("line", x + 20.0, y + 11.5, meaning));
            // A letter is about 7 pixels wide.
            x += 20.0 + 7.0 * meaning.len() as f64 + 24.0;
        }
        self.put(legend, 34.0);
    }

    /// The drawing as a file of SVG.
    fn finish(self) -> String {
        let height = rounded(self.y + MARGIN);
        let colours = COLOURS.map(|(class, colour)| format!(".{class} {{ fill: {colour}; }}\n"));
        let background = Area {
            x: 0.0,
            y: 0.0,
            width: WIDTH,
            height,
        };
        let named = |name, id: &str, text| Element::new(name).set("id", id).text(text);
        let svg = Element::new("svg")
            .set("xmlns", "http://www.w3.org/2000/svg")
            .number("width", WIDTH)
            .number("height", height)
            .set("viewBox", format!("0 0 {WIDTH} {height}"))
            .set("role", "img")
            .set("aria-labelledby", "title description")
            .with(named("title", "title", self.title))
            .with(named("desc", "description", self.description))
            .with(Element::new("style").text(STYLE).text(colours.concat()))
            .with(rectangle("background", background))
            .with_all(self.parts);
        format!("<?xml version=\"1.0\" encoding=\"UTF-8\"?>\n{svg}\n")
    }

    /// Writes the drawing to a file.
    pub fn write(self, path: &OsStr) -> Result<(), Failure> {
        files::write(path, self.finish().as_bytes())
    }
}
