//! Both banks page by page, at several moments of an update, as a drawing.

use std::ffi::OsStr;

use yohrundel::{Decline, Geometry};

use crate::drawing::{page_class, page_classes, sizes_text, Drawing, MARGIN, WIDTH};
use crate::failure::Failure;
use crate::picture::ROW_PAGES;
use crate::sign::Sign;
use crate::sign_pages::{BankPages, Page, SignPages};
use crate::svg::{group, rectangle, text, Area, Element};

/// What stands before the pages of a bank.
const LABEL: f64 = 100.0;

/// Between the boot pages and the program pages.
const GAP: f64 = 16.0;

/// The widest page, with the space after it.
const WIDEST: f64 = 32.0;

/// A page as wide as this has its number above it, a narrower one only if it is one of eight.
const NUMBERED: f64 = 20.0;

/// The moments of an update that are drawn.
pub struct BankDrawing {
    title: String,
    moments: Vec<Moment>,
}

/// A sign at one moment.
struct Moment {
    title: String,
    /// What happened, in lines.
    lines: String,
    pages: SignPages,
}

impl BankDrawing {
    /// The drawing of a sign, with what happens to it.
    pub fn new(what: &str, geometry: Geometry) -> BankDrawing {
        BankDrawing {
            title: format!("{what}: a sign with {}", sizes_text(geometry)),
            moments: Vec::new(),
        }
    }

    /// Adds the sign at this moment, with what happened.
    pub fn note(&mut self, title: &str, lines: &str, sign: &Sign) -> Result<(), Decline> {
        self.moments.push(Moment {
            title: title.into(),
            lines: lines.into(),
            pages: SignPages::of(sign)?,
        });
        Ok(())
    }

    /// Writes the drawing where a file is given.
    pub fn write(self, path: Option<&OsStr>) -> Result<(), Failure> {
        let Some(path) = path else { return Ok(()) };
        let mut drawing = Drawing::new(self.title);
        for moment in &self.moments {
            moment.draw(&mut drawing);
        }
        let mut classes = page_classes();
        classes.push(("protected", "protected (a bar under the page)"));
        drawing.legend(&classes);
        drawing.write(path)
    }
}

impl Moment {
    fn draw(&self, drawing: &mut Drawing) {
        drawing.heading(&self.title);
        drawing.lines(&self.lines);
        let [one, two] = &self.pages.0;
        let (first, second) = (one.summary(), two.summary());
        drawing.describe(&format!("{}: {first}; {second}.", self.title));
        let pitch = pitch(one);
        drawing.put(kinds(one, pitch, drawing.y), 20.0);
        for bank in [one, two] {
            let (drawn, height) = draw_bank(bank, pitch, drawing.y);
            drawing.put(drawn, height);
        }
    }
}

/// From one page to the next, for banks like this one.
fn pitch(bank: &BankPages) -> f64 {
    let columns = bank.boot.len() + bank.program.len().min(ROW_PAGES);
    let free = WIDTH - 2.0 * MARGIN - LABEL - GAP;
    (free / columns as f64).floor().min(WIDEST)
}

/// Where the boot pages of a bank begin.
const BOOT: f64 = MARGIN + LABEL;

/// Where its program pages begin.
fn program_x(bank: &BankPages, pitch: f64) -> f64 {
    BOOT + bank.boot.len() as f64 * pitch + GAP
}

/// The kinds of pages, above them.
fn kinds(bank: &BankPages, pitch: f64, y: f64) -> Element {
    group("kinds")
        .with(text("line", BOOT, y + 14.0, "boot"))
        .with(text("line", program_x(bank, pitch), y + 14.0, "program"))
}

/// A bank, rows of pages one below the other, and its height.
fn draw_bank(bank: &BankPages, pitch: f64, y: f64) -> (Element, f64) {
    let (number, row_height) = (bank.bank.number(), pitch + 24.0);
    let (class, label) = if bank.runs {
        ("strong", format!("bank {number} runs"))
    } else {
        ("line", format!("bank {number}"))
    };
    let mut drawn = group("bank").with(text(class, MARGIN, y + 14.0 + pitch / 2.0 + 4.0, label));
    let boot = Row {
        kind: "boot",
        first: 0,
        x: BOOT,
        y,
        pitch,
    };
    drawn = drawn.with_all(boot.draw(number, &bank.boot));
    let mut height = 0.0;
    for (index, pages) in bank.program.chunks(ROW_PAGES).enumerate() {
        let program = Row {
            kind: "program",
            first: index * ROW_PAGES,
            x: program_x(bank, pitch),
            y: y + height,
            pitch,
        };
        drawn = drawn.with_all(program.draw(number, pages));
        height += row_height;
    }
    (drawn, height)
}

/// Pages of one kind side by side.
struct Row {
    kind: &'static str,
    /// The number of the first page.
    first: usize,
    x: f64,
    y: f64,
    pitch: f64,
}

impl Row {
    fn draw(&self, bank: u32, pages: &[Page]) -> Vec<Element> {
        let mut elements = Vec::new();
        for (index, page) in pages.iter().enumerate() {
            let number = self.first + index;
            let area = Area {
                x: self.x + index as f64 * self.pitch,
                y: self.y + 14.0,
                width: self.pitch - 2.0,
                height: self.pitch - 2.0,
            };
            if self.pitch >= NUMBERED || number.is_multiple_of(8) {
                let middle = area.x + area.width / 2.0;
                elements.push(text("small middle", middle, self.y + 10.0, number));
            }
            elements.push(self.draw_page(bank, number, page, area));
            if page.is_protected {
                let mark = Area {
                    y: area.y + area.height + 2.0,
                    height: 3.0,
                    ..area
                };
                elements.push(rectangle("protected", mark));
            }
        }
        elements
    }

    fn draw_page(&self, bank: u32, number: usize, page: &Page, area: Area) -> Element {
        let (kind, state) = (self.kind, page.state.name());
        let protected = if page.is_protected { ", protected" } else { "" };
        let title = format!("bank {bank}, {kind} page {number}: {state}{protected}");
        rectangle(page_class(page.state), area).titled(title)
    }
}
