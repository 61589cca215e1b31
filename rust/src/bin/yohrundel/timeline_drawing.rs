//! The timeline of a row as a drawing.

use crate::bars::{number_bar, parted_bar};
use crate::drawing::{Drawing, MARGIN, WIDTH};
use crate::svg::{group, rectangle, text, Area, Element};
use crate::timeline::Timeline;
use crate::timeline_columns::SignState;

/// What stands before a line.
const LABEL: f64 = 72.0;

/// From one line to the next, and the height of one.
const LINE: f64 = 16.0;
const BAR: f64 = 12.0;

/// The height of the operations that run together.
const TOGETHER: f64 = 48.0;

/// The states from the top of a line downwards.
const ORDER: [SignState; 4] = [
    SignState::Done,
    SignState::Between,
    SignState::Waits,
    SignState::Works,
];

/// What the signs did over time, and how many operations ran together on a supply that bears some.
pub fn draw_timeline(timeline: &Timeline, bears: u32, drawing: &mut Drawing) {
    drawing.heading("Over time");
    drawing.lines(&timeline.summary());
    drawing.describe(timeline.summary().trim_end());
    if timeline.calls == 0 {
        return;
    }
    let each = timeline.drawn.calls_each();
    drawing.lines(&format!(
        "A column is {each}. A colour is as high as its share of the column."
    ));
    drawing.y += 6.0;
    for number in 0..timeline.signs() {
        let counts = timeline.drawn.counts(number);
        let counts = counts.map(|counts| ORDER.map(|state| counts[state as usize]));
        let area = line(drawing.y, BAR);
        let label = text("line", MARGIN, area.y + BAR - 1.0, format!("sign {number}"));
        let bar = parted_bar(ORDER.map(state_class), counts, area);
        drawing.put(group("times").with(label).with_all(bar), LINE);
    }
    draw_together(timeline, bears as usize, drawing);
    let classes = SignState::ALL.map(|state| (state_class(state), state.name()));
    drawing.legend(&classes);
}

/// Where a line is.
fn line(y: f64, height: f64) -> Area {
    let x = MARGIN + LABEL;
    let width = WIDTH - MARGIN - x;
    Area {
        x,
        y,
        width,
        height,
    }
}

/// The operations that ran together, and the most that the supply bears.
fn draw_together(timeline: &Timeline, bears: usize, drawing: &mut Drawing) {
    let area = line(drawing.y + 8.0, TOGETHER);
    let (right, bottom) = (area.x + area.width, area.y + area.height);
    let greatest = bears.max(timeline.most_together());
    let limit = bottom - area.height * bears as f64 / greatest as f64;
    let number = |y, number| text("small end", area.x - 4.0, y, number);
    let last = format!("call {}", timeline.calls);
    let drawn = group("together")
        .with(text("line", MARGIN, area.y + 28.0, "together"))
        .with(number(limit + 8.0, bears))
        .with(number(bottom, 0))
        .with(rectangle("frame", area))
        .with(number_bar(
            "works",
            &timeline.drawn.together(),
            greatest,
            area,
        ))
        .with(limit_line(area.x, right, limit))
        .with(text("small", area.x, bottom + 14.0, "call 0"))
        .with(text("small end", right, bottom + 14.0, last));
    drawing.put(drawn, TOGETHER + 24.0);
}

fn limit_line(from: f64, to: f64, y: f64) -> Element {
    Element::new("line")
        .set("class", "limit")
        .number("x1", from)
        .number("x2", to)
        .number("y1", y)
        .number("y2", y)
}

/// The class of a sign's state.
fn state_class(state: SignState) -> &'static str {
    match state {
        SignState::Waits => "waits",
        SignState::Works => "works",
        SignState::Between => "between",
        SignState::Done => "done",
    }
}
