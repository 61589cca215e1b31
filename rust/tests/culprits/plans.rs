//! Declines 15 and 16.

use yohrundel::{culprit, plan};

use crate::{text, told, Told};

fn planned(minute: u32, duration: u32, windows: &[[u32; 2]]) -> Told {
    let named = culprit::plan(minute, duration, windows);
    told(named, plan(minute, duration, windows))
}

#[test]
fn minutes_and_durations() {
    let week = [[0, 10_080]];
    for minute in [10_080, u32::MAX] {
        let expected = text(&format!("the minute is {minute}, not 0 to 10079"));
        assert_eq!(planned(minute, 0, &[]), expected);
    }
    assert_eq!(planned(10_079, 1, &week), None);
    for duration in [0, 1_441, u32::MAX] {
        let expected = text(&format!("the duration is {duration}, not 1 to 1440"));
        assert_eq!(planned(0, duration, &[]), expected);
    }
    assert_eq!(
        [planned(0, 1, &week), planned(0, 1_440, &week)],
        [None, None]
    );
}

#[test]
fn counts_of_windows() {
    assert_eq!(planned(0, 1, &[]), text("there are 0 windows, not 1 to 14"));
    let many = [[0, 0]; 15];
    assert_eq!(
        planned(0, 1, &many),
        text("there are 15 windows, not 1 to 14")
    );
    assert_eq!(planned(0, 1, &[[0, 1]; 14]), None);
}

/// The first window that is wrong, and of it the start before the length.
#[test]
fn starts_and_lengths() {
    let good = [10_079, 10_080];
    let start = text("window 2 of 3 starts at minute 10080, not 0 to 10079");
    assert_eq!(planned(0, 1, &[good, [10_080, 0], [0, 0]]), start);
    for length in [0, 10_081] {
        let expected = format!("window 1 of 2 has the length {length}, not 1 to 10080");
        assert_eq!(planned(0, 1, &[[0, length], [10_080, 0]]), text(&expected));
    }
    assert_eq!(planned(0, 1, &[good, [0, 1]]), None);
}

#[test]
fn windows_that_are_too_short() {
    let windows = [[0, 240], [9_960, 360], [5_000, 359]];
    let expected = text("the duration is 361, the longest window 360");
    assert_eq!(planned(200, 361, &windows), expected);
    assert_eq!(planned(200, 360, &windows), None);
}
