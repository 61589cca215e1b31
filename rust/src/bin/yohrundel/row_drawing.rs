//! A row of signs as a drawing: the banks of each sign before, at the end of the calls and after the start-up, and the timeline.

use std::ffi::OsStr;

use yohrundel::Decline;

use crate::bars::class_bar;
use crate::drawing::{page_class, page_classes, sizes_text, Drawing, MARGIN, WIDTH};
use crate::failure::Failure;
use crate::row_report::Report;
use crate::row_signs::Row;
use crate::sign_pages::{BankPages, Page, SignPages};
use crate::svg::{group, rectangle, text, Area, Element};
use crate::timeline_drawing::draw_timeline;
use crate::wording::counted;

/// What stands before the bars of a sign.
const LABEL: f64 = 60.0;

/// From one moment to the next.
const MOMENT: f64 = (WIDTH - 2.0 * MARGIN - LABEL) / 3.0;

/// Before each bar, for the mark of the bank that runs.
const MARK: f64 = 12.0;

/// Between the boot pages and the program pages of a bar.
const GAP: f64 = 3.0;

/// The height of a bar, and from a bank to the next and a sign to the next.
const BAR: f64 = 9.0;
const BANK: f64 = 11.0;
const SIGN: f64 = 28.0;

/// A page as wide as this has space after it.
const APART: f64 = 4.0;

/// The signs of a row at the moments before its end.
pub struct RowDrawing {
    /// A sign before its update, as all are.
    before: SignPages,
    at_end: Vec<SignPages>,
}

impl RowDrawing {
    /// Notes the signs of a row that has made its calls, before they are reset.
    pub fn at_end(row: &Row) -> Result<RowDrawing, Decline> {
        Ok(RowDrawing {
            before: row.pages_before()?,
            at_end: row.pages()?,
        })
    }

    /// Writes the drawing of a row that was started up where a file is given.
    pub fn write(self, row: &Row, report: &Report, path: Option<&OsStr>) -> Result<(), Failure> {
        let Some(path) = path else { return Ok(()) };
        let after = row.pages()?;
        let sizes = sizes_text(row.geometry());
        let mut drawing = Drawing::new(format!("A row on one supply: signs with {sizes}"));
        drawing.lines(&report.head());
        self.draw_banks(&after, report, &mut drawing);
        draw_timeline(&report.timeline, report.k, &mut drawing);
        drawing.describe(&report.ends());
        drawing.write(path)
    }

    fn draw_banks(&self, after: &[SignPages], report: &Report, drawing: &mut Drawing) {
        drawing.heading("The banks of each sign");
        drawing.lines("Bank 1 is above bank 2, and the boot pages are before the program pages.");
        let calls = counted(report.timeline.calls, "call");
        let end = format!("after {calls} {}", report.ending.sentence());
        let moments = ["before the updates", &end, "after a reset and start-up"];
        let mut heads = group("heads");
        for (moment, x) in moments.into_iter().zip(moment_xs()) {
            heads = heads.with(text("strong", x, drawing.y + 18.0, moment));
        }
        drawing.put(heads, 28.0);
        for (number, (at_end, after)) in self.at_end.iter().zip(after).enumerate() {
            let y = drawing.y;
            let mut sign =
                group("sign").with(text("line", MARGIN, y + 14.0, format!("sign {number}")));
            for (pages, x) in [&self.before, at_end, after].into_iter().zip(moment_xs()) {
                sign = sign.with(draw_sign(pages, x, y));
            }
            drawing.put(sign, SIGN);
        }
        let mut classes = page_classes();
        classes.push(("runs", "the bank that runs"));
        drawing.legend(&classes);
    }
}

/// Where each moment begins.
fn moment_xs() -> [f64; 3] {
    [0.0, 1.0, 2.0].map(|number| MARGIN + LABEL + number * MOMENT)
}

/// The two bars of a sign at one moment.
fn draw_sign(SignPages(banks): &SignPages, x: f64, y: f64) -> Element {
    let mut moment = group("moment");
    for (number, bank) in banks.iter().enumerate() {
        let y = y + number as f64 * BANK;
        moment = moment.with(draw_bank(bank, x, y));
    }
    moment
}

fn draw_bank(bank: &BankPages, x: f64, y: f64) -> Element {
    let mut drawn = group("bank").titled(bank.summary());
    if bank.runs {
        let mark = Area {
            x: x + 2.0,
            y: y + 1.5,
            width: 6.0,
            height: 6.0,
        };
        drawn = drawn.with(rectangle("runs", mark));
    }
    let pages = bank.boot.len() + bank.program.len();
    let pitch = (MOMENT - 2.0 * MARK - GAP) / pages as f64;
    let bar = |pages: &[Page], x| {
        let classes: Vec<&str> = pages.iter().map(|page| page_class(page.state)).collect();
        let area = Area {
            x,
            y,
            width: pitch * pages.len() as f64,
            height: BAR,
        };
        let space = if pitch < APART { 0.0 } else { 1.0 };
        class_bar(&classes, area, space)
    };
    let boot = x + MARK;
    let program = boot + pitch * bank.boot.len() as f64 + GAP;
    drawn
        .with_all(bar(&bank.boot, boot))
        .with_all(bar(&bank.program, program))
}
