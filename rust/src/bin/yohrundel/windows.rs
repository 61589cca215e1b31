//! The windows of a plan as arguments, each with its length or with its end.

use crate::times::{read_minute, read_time, weekday_and, DAY, WEEK};

/// What a window may be written as.
pub const WINDOW_WORDS: &str = "as Mon-22:00-06:00, Fri-22:00-Mon-06:00 or 1350:120";

/// The start minute of a window and its length in minutes.
pub type Window = [u32; 2];

/// A window with its length or with its end.
pub fn read_window(text: &str) -> Option<Window> {
    with_length(text).or_else(|| with_end(text))
}

/// A minute of the week and a length. The last colon parts them, since a time may have one too.
fn with_length(text: &str) -> Option<Window> {
    let (start, length) = text.rsplit_once(':')?;
    Some([read_minute(start)?, length.parse().ok()?])
}

/// A weekday and a time, and the end: a time, or a weekday and a time. A hyphen parts them, as it may part both of these.
fn with_end(text: &str) -> Option<Window> {
    let hyphens = text.match_indices('-').map(|(at, _)| at);
    let mut parts = hyphens.map(|at| (&text[..at], &text[at + 1..]));
    parts.find_map(|(start, end)| {
        let start = weekday_and(start, read_time)?;
        Some([start, length_until(start, end)?])
    })
}

/// The minutes from a start to the next time of the day or of the week that is the end: at least one, and all of them where both are
/// equal.
fn length_until(start: u32, end: &str) -> Option<u32> {
    let (end, period) = match read_end(end) {
        Some(time) => (time, DAY),
        None => (weekday_and(end, read_end)?, WEEK),
    };
    match (end + period - start % period) % period {
        0 => Some(period),
        length => Some(length),
    }
}

/// A time of the day, or 24:00 for its end.
fn read_end(text: &str) -> Option<u32> {
    match text {
        "24:00" => Some(DAY),
        _ => read_time(text),
    }
}
