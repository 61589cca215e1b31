//! `yohrundel plan`.

use model::plan::{plan, Window, LONGEST, MOST_WINDOWS, WEEK};
use model::random::Random;
use model::Refusal;

use crate::run::{run, Ran};

pub fn planned(now: &str, duration: &str, windows: &[String]) -> Ran {
    let mut arguments = vec!["plan", now, duration];
    arguments.extend(windows.iter().map(String::as_str));
    run(&arguments)
}

pub fn day_and_time(minute: u32) -> (&'static str, String) {
    let days = ["Mon", "Tue", "Wed", "Thu", "Fri", "Sat", "Sun"];
    let (hours, minutes) = (minute / 60 % 24, minute % 60);
    let day = days[minute as usize / (24 * 60)];
    (day, format!("{hours:02}:{minutes:02}"))
}

/// A minute of the week in one of the forms that are understood.
fn written(random: &mut Random, minute: u32) -> String {
    if minute >= WEEK {
        return minute.to_string();
    }
    let (day, time) = day_and_time(minute);
    match random.below(6) {
        0 => minute.to_string(),
        5 => format!("{day} {}", time.strip_prefix('0').unwrap_or(&time)),
        1 => format!("{day} {time}"),
        2 => format!("{day}-{time}"),
        3 => format!("{day}{time}"),
        _ => format!("{}-{time}", day.to_lowercase()),
    }
}

/// What a plan prints, or why no wait fits. All its numbers are in range.
pub fn expected(now: u32, duration: u32, windows: &[Window]) -> Result<String, String> {
    match plan(now, duration, windows) {
        Ok(wait) => {
            let (day, time) = day_and_time((now + wait) % WEEK);
            let minutes = if wait == 1 { "minute" } else { "minutes" };
            Ok(format!("Wait {wait} {minutes}, until {day} {time}.\n"))
        }
        Err(Refusal::NoWait) => {
            let longest = windows.iter().map(|window| window.length).max();
            let longest = longest.expect("a window");
            let cause = format!("the duration is {duration}, the longest window {longest}");
            Err(format!("16: no wait fits: {cause}"))
        }
        Err(refusal) => panic!("{refusal:?}"),
    }
}

/// A plan whose times are written in any of the forms.
fn asked(random: &mut Random, now: u32, duration: u32, windows: &[Window]) -> Ran {
    let texts: Vec<String> = windows
        .iter()
        .map(|window| format!("{}:{}", written(random, window.start), window.length))
        .collect();
    planned(&written(random, now), &duration.to_string(), &texts)
}

/// Compares one plan; true where it is not declined.
fn compare(random: &mut Random, now: u32, duration: u32, windows: &[Window]) -> bool {
    let ran = asked(random, now, duration, windows);
    match expected(now, duration, windows) {
        Ok(expected) => assert_eq!(ran.printed(), expected, "{now} {duration} {windows:?}"),
        Err(reason) => {
            assert_eq!(ran.reason(1), format!("plan: declined by {reason}"));
            return false;
        }
    }
    true
}

/// A plan of which a number is out of range.
fn out_of_range(now: u32, duration: u32, windows: &[Window], cause: &str) {
    assert_eq!(plan(now, duration, windows), Err(Refusal::WeekRange));
    let ran = asked(&mut Random::new(10), now, duration, windows);
    let reason = "declined by 15: a number of the plan is out of range";
    assert_eq!(ran.reason(1), format!("plan: {reason}: {cause}"));
}

pub fn window(start: u32, length: u32) -> Window {
    Window { start, length }
}

#[test]
fn random_plans() {
    let mut random = Random::new(5);
    let mut fits = 0;
    for _ in 0..200 {
        let random = &mut random;
        let windows: Vec<Window> = (0..random.between(1, MOST_WINDOWS as u32))
            .map(|_| window(random.below(WEEK), random.between(1, 600)))
            .collect();
        let (now, duration) = (random.below(WEEK), random.between(1, 480));
        fits += u32::from(compare(random, now, duration, &windows));
    }
    assert!((1..200).contains(&fits));
}

/// Around the moment from which on there is no wait.
#[test]
fn short_waits() {
    let random = &mut Random::new(8);
    for now in [98, 99, 100, 101] {
        assert!(compare(random, now, 60, &[window(100, 61)]));
    }
    let text = planned("Mon 1:39", "60", &["100:61".into()]).printed();
    assert_eq!(text, "Wait 1 minute, until Mon 01:40.\n");
    let text = planned("Mon 1:38", "60", &["100:61".into()]).printed();
    assert_eq!(text, "Wait 2 minutes, until Mon 01:40.\n");
}

#[test]
fn edges_of_the_ranges() {
    let random = &mut Random::new(6);
    let whole = [window(0, WEEK)];
    assert!(compare(random, 0, 1, &whole));
    assert!(compare(random, WEEK - 1, LONGEST, &whole));
    assert!(!compare(random, 0, 60, &[window(0, 59)]));
    assert!(compare(random, 5, 60, &[window(0, 60); MOST_WINDOWS]));
}

/// NOW, DURATION, the count of the windows and then each window, its start before its length.
#[test]
fn numbers_out_of_range() {
    let whole = [window(0, WEEK)];
    let late = "the minute is 10080, not 0 to 10079";
    out_of_range(WEEK, 1, &whole, late);
    out_of_range(WEEK, 0, &[window(WEEK, 0); 15], late);
    out_of_range(0, 0, &whole, "the duration is 0, not 1 to 1440");
    let long = "the duration is 1441, not 1 to 1440";
    out_of_range(0, LONGEST + 1, &[window(WEEK, 0); 15], long);
    let many = "there are 15 windows, not 1 to 14";
    out_of_range(0, 1, &[window(WEEK, 0); MOST_WINDOWS + 1], many);
    let start = "window 2 of 3 starts at minute 10080, not 0 to 10079";
    let windows = [window(0, 1), window(WEEK, 0), window(0, 0)];
    out_of_range(0, 1, &windows, start);
    let empty = "window 1 of 1 has the length 0, not 1 to 10080";
    out_of_range(0, 60, &[window(0, 0)], empty);
    let length = "window 2 of 2 has the length 10081, not 1 to 10080";
    out_of_range(0, 1, &[window(0, 1), window(0, WEEK + 1)], length);
    let largest = "the minute is 4294967295, not 0 to 10079";
    out_of_range(u32::MAX, u32::MAX, &whole, largest);
}

const WRONG_TIMES: [&str; 18] = [
    "",
    "Mo",
    "Mon",
    "Mon :00",
    "Mon 7:0",
    "Mon 7:000",
    "Mon 007:00",
    "Mon 24:00",
    "Mon 07:60",
    "Mon 07",
    "Mon  07:00",
    "Mon_07:00",
    "Mon 07:00:00",
    "Mon +7:00",
    "Day 07:00",
    "07:00",
    "4294967296",
    "M\u{f6}n07:00",
];

const WRONG_WINDOWS: [&str; 22] = [
    "",
    "0",
    ":",
    "0:",
    ":1",
    "0:x",
    "Mon-22:30",
    "Mon-22:30:",
    "0:1:1",
    "22:00-06:00",
    "1320-06:00",
    "Mon-22:00-",
    "Mon-22:00-360",
    "Mon-22:00-6",
    "Mon-22:00-06:60",
    "Mon-24:00-06:00",
    "Mon-22:00-24:01",
    "Mon-22:00-Tue",
    "Mon-22:00-Day-06:00",
    "Mon-22:00-06:00-07:00",
    "Mon-22:00 06:00",
    "Mon-22:00--06:00",
];

/// The reason of a plan that is not understood.
fn wrong(ran: Ran, reason: &str) {
    let expected = format!("plan: {reason}; try yohrundel plan --help");
    assert_eq!(ran.reason(2), expected);
}

#[test]
fn times_that_are_not_understood() {
    for time in WRONG_TIMES {
        let reason = format!("NOW is {time:?}, not a minute of the week or as Mon-22:30");
        wrong(planned(time, "1", &["0:1".into()]), &reason);
    }
}

#[test]
fn windows_that_are_not_understood() {
    for text in WRONG_WINDOWS {
        let words = "as Mon-22:00-06:00, Fri-22:00-Mon-06:00 or 1350:120";
        let reason = format!("WINDOW is {text:?}, not {words}");
        wrong(planned("0", "1", &["0:1".into(), text.into()]), &reason);
    }
}
