//! Plans at the edges of their ranges, of a window, of the week and between windows.

use crate::cases::Case;
use crate::geometry::ALL_ONES;
use crate::plan::{LONGEST, WEEK};

use super::parts::*;

/// A window's start and length.
type Hours = (u32, u32);

/// Numbers that minutes of the week would be if they were cut or counted modulo something.
const FAR: [u32; 6] = [2 * WEEK, 65_536, 65_537, 1 << 31, (1 << 31) + 1, ALL_ONES];

pub fn cases() -> Vec<Case> {
    let mut cases = Vec::new();
    ranges(&mut cases);
    ranges_where_no_wait_fits(&mut cases);
    counts(&mut cases);
    places_in_the_list(&mut cases);
    for duration in [1, 2, 60, LONGEST - 1, LONGEST] {
        lengths(duration, &mut cases);
        almost_whole_weeks(duration, &mut cases);
    }
    last_minutes(&mut cases);
    ends_of_the_week(&mut cases);
    neighbours(&mut cases);
    smallest_waits(&mut cases);
    cases
}

/// Each number around its range, while all else fits.
fn ranges(cases: &mut Vec<Case>) {
    let whole = [(0, WEEK)];
    for minute in [0, 1, WEEK - 1, WEEK, WEEK + 1].into_iter().chain(FAR) {
        cases.push(plan(minute, 1, &whole));
        cases.push(plan(minute, LONGEST, &whole));
        cases.push(plan(0, 1, &[(minute, WEEK)]));
        cases.push(plan(0, 1, &[(minute, 1)]));
    }
    for duration in [
        0,
        1,
        2,
        LONGEST - 1,
        LONGEST,
        LONGEST + 1,
        LONGEST + 2,
        WEEK,
    ]
    .into_iter()
    .chain(FAR)
    {
        cases.push(plan(0, duration, &whole));
        cases.push(plan(WEEK - 1, duration, &whole));
    }
    for length in [0, 1, 2, WEEK - 1, WEEK, WEEK + 1].into_iter().chain(FAR) {
        cases.push(plan(0, 1, &[(0, length)]));
        cases.push(plan(0, 1, &[(WEEK - 1, length)]));
    }
}

/// "16, checked after it": a window too short, and beside it nothing or one number out of range.
fn ranges_where_no_wait_fits(cases: &mut Vec<Case>) {
    for minute in [WEEK - 1, WEEK, ALL_ONES] {
        cases.push(plan(minute, 2, &[(0, 1)]));
        cases.push(plan(0, 2, &[(minute, 1)]));
        cases.push(plan(0, 2, &[(0, 1), (minute, 1)]));
    }
    for duration in [LONGEST, LONGEST + 1, ALL_ONES] {
        cases.push(plan(0, duration, &[(0, 1)]));
    }
    for length in [0, 1, WEEK + 1, ALL_ONES] {
        cases.push(plan(0, 2, &[(0, 1), (0, length)]));
    }
    for count in [0, 1, 14, 15] {
        cases.push(plan(0, 2, &vec![(0, 1); count]));
    }
}

/// "There are 1 to 14 windows", alike and each long enough.
fn counts(cases: &mut Vec<Case>) {
    for count in [0, 1, 2, 13, 14, 15, 16, 28, 256, 257, 270] {
        cases.push(plan(100, 60, &vec![(100, 60); count]));
    }
}

/// The one window that fits, or the one number out of range, stands first, last or between.
fn places_in_the_list(cases: &mut Vec<Case>) {
    for count in [2, 3, 14] {
        for place in each_once(&[0, 1, count / 2, count - 2, count - 1]) {
            let mut put = |others: Hours, one: Hours| {
                let mut windows = vec![others; count as usize];
                windows[place as usize] = one;
                cases.push(plan(100, 60, &windows));
            };
            put((100, 59), (100, 60));
            put((100, 59), (7_000, 60));
            for refused in [(WEEK, 60), (ALL_ONES, 60), (100, 0), (100, WEEK + 1)] {
                put((100, 60), refused);
            }
        }
    }
}

/// Windows a minute shorter than the duration, as long, and a minute longer; each seen from around its start.
fn lengths(duration: u32, cases: &mut Vec<Case>) {
    let at_the_end = WEEK - duration;
    let starts = [
        0,
        1,
        5_000,
        at_the_end - 1,
        at_the_end,
        at_the_end + 1,
        WEEK - 1,
    ];
    for start in each_once(&starts.map(|start| start % WEEK)) {
        for length in [duration - 1, duration, duration + 1] {
            for after in [WEEK - 1, 0, 1, 2] {
                let present = (start + after) % WEEK;
                cases.push(plan(present, duration, &[(start, length)]));
            }
        }
    }
}

/// "holds its first minute and not the one after its last".
fn last_minutes(cases: &mut Vec<Case>) {
    for start in [0, 5_000, WEEK - 100, WEEK - 99, WEEK - 50] {
        for duration in [1, 2, 10, 99] {
            let last_fit = 100 - duration;
            for after in [last_fit - 1, last_fit, last_fit + 1, 99, 100, 101] {
                let present = (start + after) % WEEK;
                cases.push(plan(present, duration, &[(start, 100)]));
            }
        }
    }
}

/// Windows of all minutes, all but one and all but two, seen from around those that are left out.
fn almost_whole_weeks(duration: u32, cases: &mut Vec<Case>) {
    for start in [0, 1, 5_000, WEEK - 1] {
        for length in [WEEK - 2, WEEK - 1, WEEK] {
            let before = WEEK - duration;
            for after in [before - 2, before - 1, before, before + 1, WEEK - 1, 0] {
                let present = (start + after) % WEEK;
                cases.push(plan(present, duration, &[(start, length)]));
            }
        }
    }
}

/// "may run past the end of the week"; without running past it, two windows that meet there don't join.
fn ends_of_the_week(cases: &mut Vec<Case>) {
    let sets: [&[Hours]; 6] = [
        &[(WEEK - 30, 60)],
        &[(WEEK - 30, 30)],
        &[(0, 30)],
        &[(WEEK - 30, 30), (0, 30)],
        &[(0, 30), (WEEK - 30, 31)],
        &[(WEEK - 1, 30), (WEEK - 30, 30)],
    ];
    for windows in sets {
        for present in [WEEK - 31, WEEK - 30, WEEK - 29, WEEK - 1, 0, 1, 29] {
            for duration in [1, 29, 30, 31, 60, 61] {
                cases.push(plan(present, duration, windows));
            }
        }
    }
}

/// "lie in the same window": windows that touch, overlap, leave a minute free, or lie in each other.
fn neighbours(cases: &mut Vec<Case>) {
    let sets: [&[Hours]; 8] = [
        &[(1_000, 30), (1_030, 30)],
        &[(1_030, 30), (1_000, 30)],
        &[(1_000, 30), (1_029, 30)],
        &[(1_000, 30), (1_031, 30)],
        &[(1_000, 30), (1_030, 30), (1_060, 30)],
        &[(1_000, 30), (1_015, 30), (1_030, 30)],
        &[(1_000, 60), (1_010, 20)],
        &[(1_000, 30), (1_030, 30), (900, 31)],
    ];
    for windows in sets {
        for present in [1_000, 1_001, 1_029, 1_030, 1_031] {
            for duration in [1, 2, 29, 30, 31, 60] {
                cases.push(plan(present, duration, windows));
            }
        }
    }
}

/// "the smallest wait": windows in any order, seen from before, in and after each.
fn smallest_waits(cases: &mut Vec<Case>) {
    let sets: [&[Hours]; 5] = [
        &[(1_000, 60), (2_000, 60), (3_000, 60)],
        &[(3_000, 60), (2_000, 60), (1_000, 60)],
        &[(2_000, 60), (3_000, 60), (1_000, 60)],
        &[(1_000, 59), (2_000, 60), (3_000, 61)],
        &[(1_000, 90), (1_000, 60), (1_030, 60)],
    ];
    for windows in sets {
        for start in [1_000, 2_000, 3_000] {
            for present in [start - 1, start, start + 1, start + 30, start + 60] {
                cases.push(plan(present, 60, windows));
            }
        }
        for present in [0, WEEK - 1] {
            cases.push(plan(present, 60, windows));
        }
    }
}
