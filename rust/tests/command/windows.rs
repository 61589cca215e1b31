//! `yohrundel plan`: windows that are given by their end.

use model::plan::{LONGEST, WEEK};
use model::random::Random;

use crate::plan::{day_and_time, expected, planned, window};

const DAY: u32 = 24 * 60;

/// A text is the window of a start and a length: plans at both sides of its end, and with updates of its length and longer ones.
fn check(text: &str, start: u32, length: u32) {
    let last = start + length - 1;
    for (now, duration) in [
        (start, length.min(LONGEST)),
        (start, (length + 1).min(LONGEST)),
        (start + 1, length.min(LONGEST)),
        (last, 1),
        (last + 1, 1),
    ] {
        let now = now % WEEK;
        let ran = planned(&now.to_string(), &duration.to_string(), &[text.into()]);
        match expected(now, duration, &[window(start, length)]) {
            Ok(expected) => assert_eq!(ran.printed(), expected, "{text} {now} {duration}"),
            Err(reason) => {
                let reason = format!("plan: declined by {reason}");
                assert_eq!(ran.reason(1), reason, "{text} {now} {duration}");
            }
        }
    }
}

/// The lengths are reckoned by hand. An end that is not after the start is on the next day.
#[test]
fn ends_on_the_same_day_and_on_the_next() {
    let monday_22 = 22 * 60;
    for (text, length) in [
        ("Mon 22:00-22:01", 1),
        ("Mon 22:00-23:59", 119),
        ("Mon 22:00-24:00", 120),
        ("Mon 22:00-00:00", 120),
        ("Mon 22:00-0:01", 121),
        ("Mon 22:00-06:00", 480),
        ("Mon-22:00-06:00", 480),
        ("Mon22:00-6:00", 480),
        ("mon-22:00-6:00", 480),
        ("Mon 22:00-21:59", 1439),
        ("Mon 22:00-22:00", 1440),
    ] {
        check(text, monday_22, length);
    }
    check("Mon 00:00-24:00", 0, DAY);
    check("Mon 0:00-0:00", 0, DAY);
    check("Sun 22:00-06:00", 6 * DAY + monday_22, 480);
    check("Tue 7:30-8:00", DAY + 450, 30);
}

/// An end with a weekday is the next one after the start.
#[test]
fn ends_with_a_weekday() {
    let friday_22 = 4 * DAY + 22 * 60;
    for (text, length) in [
        ("Fri 22:00-Mon 06:00", 2 * 60 + 2 * DAY + 6 * 60),
        ("Fri-22:00-Mon-06:00", 2 * 60 + 2 * DAY + 6 * 60),
        ("fri22:00-mon6:00", 2 * 60 + 2 * DAY + 6 * 60),
        ("Fri 22:00-Sun 24:00", 2 * 60 + 2 * DAY),
        ("Fri 22:00-Mon 00:00", 2 * 60 + 2 * DAY),
        ("Fri 22:00-Sat 06:00", 480),
        ("Fri 22:00-Fri 22:01", 1),
        ("Fri 22:00-Fri 22:00", WEEK),
        ("Fri 22:00-Fri 21:59", WEEK - 1),
    ] {
        check(text, friday_22, length);
    }
}

/// Every form of a window, of any start and length.
#[test]
fn random_windows() {
    let mut random = Random::new(9);
    for number in 0..60 {
        let start = random.below(WEEK);
        let most = if number % 2 == 0 { DAY } else { WEEK };
        let length = random.between(1, most);
        let (day, time) = day_and_time(start);
        let (end_day, end_time) = day_and_time((start + length) % WEEK);
        let blank = random.pick(&[" ", "-", ""]);
        let end = match number % 2 {
            0 => end_time,
            _ => format!("{end_day}{blank}{end_time}"),
        };
        check(&format!("{day}{blank}{time}-{end}"), start, length);
    }
}
