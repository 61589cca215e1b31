//! Declines 15 and 16 of a plan.

use std::fmt;

use super::Culprit;

/// The minutes of a week.
const WEEK: u32 = 10_080;

/// A clause of decline 15: the first number of a plan that is out of its range.
#[derive(Clone, Copy, Debug, PartialEq, Eq, Hash)]
pub enum HoursClause {
    /// The present minute is not 0 to 10,079.
    Minute(u32),
    /// The duration is not 1 to 1,440.
    Duration(u32),
    /// There are not 1 to 14 windows.
    Windows(usize),
    /// A window's start is not 0 to 10,079.
    Start {
        /// Its index in the list.
        window: usize,
        /// How many windows there are.
        windows: usize,
        /// Its start.
        start: u32,
    },
    /// A window's length is not 1 to 10,080.
    Length {
        /// Its index in the list.
        window: usize,
        /// How many windows there are.
        windows: usize,
        /// Its length.
        length: u32,
    },
}

/// Declines 15 and 16.
pub(super) fn plan_culprit(minute: u32, duration: u32, windows: &[[u32; 2]]) -> Option<Culprit> {
    if let Some(clause) = hours_clause(minute, duration, windows) {
        return Some(Culprit::Hours(clause));
    }
    // A plan may wait for the start of any window, so that each that is long enough fits.
    let longest = windows.iter().map(|[_, length]| *length).max()?;
    (longest < duration).then_some(Culprit::NoWait { duration, longest })
}

fn hours_clause(minute: u32, duration: u32, windows: &[[u32; 2]]) -> Option<HoursClause> {
    if minute >= WEEK {
        return Some(HoursClause::Minute(minute));
    }
    if !(1..=1_440).contains(&duration) {
        return Some(HoursClause::Duration(duration));
    }
    let count = windows.len();
    if !(1..=14).contains(&count) {
        return Some(HoursClause::Windows(count));
    }
    (0..count).find_map(|window| window_clause(windows, window))
}

fn window_clause(list: &[[u32; 2]], window: usize) -> Option<HoursClause> {
    let (windows, [start, length]) = (list.len(), list[window]);
    if start >= WEEK {
        return Some(HoursClause::Start {
            window,
            windows,
            start,
        });
    }
    (!(1..=WEEK).contains(&length)).then_some(HoursClause::Length {
        window,
        windows,
        length,
    })
}

/// Windows are counted from 1, as "window 1 of 3".
impl fmt::Display for HoursClause {
    fn fmt(&self, f: &mut fmt::Formatter<'_>) -> fmt::Result {
        match *self {
            HoursClause::Minute(minute) => write!(f, "the minute is {minute}, not 0 to 10079"),
            HoursClause::Duration(duration) => {
                write!(f, "the duration is {duration}, not 1 to 1440")
            }
            HoursClause::Windows(count) => write!(f, "there are {count} windows, not 1 to 14"),
            HoursClause::Start {
                window,
                windows,
                start,
            } => {
                write_window(f, window, windows)?;
                write!(f, "starts at minute {start}, not 0 to 10079")
            }
            HoursClause::Length {
                window,
                windows,
                length,
            } => {
                write_window(f, window, windows)?;
                write!(f, "has the length {length}, not 1 to 10080")
            }
        }
    }
}

/// The front of a sentence.
fn write_window(f: &mut fmt::Formatter<'_>, window: usize, windows: usize) -> fmt::Result {
    let number = window + 1;
    write!(f, "window {number} of {windows} ")
}

/// Decline 16.
pub(super) fn write_no_wait(
    f: &mut fmt::Formatter<'_>,
    duration: u32,
    longest: u32,
) -> fmt::Result {
    write!(
        f,
        "the duration is {duration}, the longest window {longest}"
    )
}
