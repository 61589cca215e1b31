//! `yohrundel plan`: when a garage's hours hold a whole update.

use yohrundel::{culprit, plan};

use crate::arguments::{formed, Arguments};
use crate::command::{Command, First};
use crate::failure::{explained, Answer, Failure};
use crate::json::{object, JSON};
use crate::times::{read_minute, weekday_and_time, WEEK};
use crate::windows::{read_window, Window, WINDOW_WORDS};
use crate::wording::counted;

pub const COMMAND: Command = Command {
    name: "plan",
    arguments: "NOW DURATION WINDOW..",
    first: First::Any,
    summary: "gives the wait until an update fits",
    details: "\
NOW is the present minute of the week: a number from 0 to 10079, counted from
Monday 00:00, or a weekday and a time as 'Mon 22:30', Mon-22:30 or Mon7:30.
DURATION is how many minutes an update takes, 1 to 1440.
WINDOW is a time in which signs may be updated. There are 1 to 14, each as
  Mon-22:00-06:00      from a weekday and a time to a time. An end that is not
                       after the start is on the next day: here on Tuesday, and
                       Mon-06:00-06:00 is 24 hours long. 24:00 ends a day.
  Fri-22:00-Mon-06:00  from a weekday and a time to the next such weekday and
                       time; Mon-06:00-Mon-06:00 is a week long.
  1350:120             from a minute of the week, as NOW is one, for 1 to 10080
                       minutes; also Mon-22:30:120.
'Mon 22:00-06:00' is understood, too. A window may run past the end of the week,
and an update may end when the window ends.
It prints the smallest wait in minutes after which a whole update lies in one
window, and the weekday and time then. Numbers that are out of range and windows
that are all too short are declined.",
    options: &[JSON],
    keys: &[
        ("wait_minutes", "the smallest wait in minutes"),
        (
            "start_minute",
            "the minute of the week when the update starts",
        ),
        ("start", "the weekday and time then, as Sat 00:00"),
    ],
    run,
};

const TIME: &str = "a minute of the week or as Mon-22:30";

fn run(mut arguments: Arguments) -> Answer {
    let now = arguments.form("NOW", TIME, read_minute)?;
    let duration = arguments.number("DURATION")?;
    let windows = take_windows(&mut arguments)?;
    let culprit = || culprit::plan(now, duration, &windows);
    let declined = |decline| explained(decline, culprit());
    let wait = plan(now, duration, &windows).map_err(declined)?;
    let minute = (now + wait) % WEEK;
    let start = weekday_and_time(minute);
    if arguments.is_given(&JSON) {
        let planned = object([
            ("wait_minutes", wait.into()),
            ("start_minute", minute.into()),
            ("start", start.into()),
        ]);
        return Ok(planned.line());
    }
    let minutes = counted(wait, "minute");
    Ok(format!("Wait {minutes}, until {start}.\n").into())
}

/// At least one window.
fn take_windows(arguments: &mut Arguments) -> Result<Vec<Window>, Failure> {
    let mut windows = vec![arguments.form(NAME, WINDOW_WORDS, read_window)?];
    while let Some(argument) = arguments.optional() {
        windows.push(formed(argument, NAME, WINDOW_WORDS, read_window)?);
    }
    Ok(windows)
}

const NAME: &str = "WINDOW";
