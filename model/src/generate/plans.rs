//! Plans: minutes, durations and windows near their bounds and near each other.

use crate::cases::Case;
use crate::plan::{Window, LONGEST, MOST_WINDOWS, WEEK};
use crate::random::Random;

/// How seldom one number is out of range: once in this many plans.
const SPOILED: u32 = 8;

/// One minute back, none, or one on, modulo the week.
const NEAR: [u32; 3] = [WEEK - 1, 0, 1];

pub fn plan_case(random: &mut Random, case: &mut Case) {
    let mut present = minute(random);
    let mut duration = duration(random);
    let mut windows = windows(random, present, duration);
    if random.one_in(SPOILED) {
        match random.below(5) {
            0 => present = refused_minute(random),
            1 => duration = refused_number(random, LONGEST),
            2 => refused_count(random, &mut windows),
            3 => any_window(random, &mut windows).start = refused_minute(random),
            _ => any_window(random, &mut windows).length = refused_number(random, WEEK),
        }
    }
    put_plan(case, present, duration, &windows);
}

/// The numbers of a plan as a line gives them.
pub fn put_plan(case: &mut Case, present: u32, duration: u32, windows: &[Window]) {
    case.numbers = vec![present, duration, windows.len() as u32];
    for window in windows {
        case.numbers.extend([window.start, window.length]);
    }
}

fn minute(random: &mut Random) -> u32 {
    match random.below(3) {
        0 => random.pick(&[0, 1, 2, WEEK / 2, WEEK - 3, WEEK - 2, WEEK - 1]),
        _ => random.below(WEEK),
    }
}

fn duration(random: &mut Random) -> u32 {
    match random.below(4) {
        0 => random.pick(&[1, 2, 3, LONGEST - 1, LONGEST]),
        1 => random.between(1, 60),
        _ => random.between(1, LONGEST),
    }
}

/// Windows of any length, all at most a minute longer than the duration, or all shorter than it.
fn windows(random: &mut Random, present: u32, duration: u32) -> Vec<Window> {
    let count = match random.below(6) {
        0 | 1 => 1,
        2 => MOST_WINDOWS as u32,
        _ => random.between(2, MOST_WINDOWS as u32),
    };
    let most = match random.below(4) {
        0 => (duration - 1).max(1),
        1 | 2 => duration + 1,
        _ => WEEK,
    };
    let mut windows: Vec<Window> = Vec::new();
    for _ in 0..count {
        let end = windows.last().map_or(0, |last| last.start + last.length);
        let start = start(random, present, duration, end);
        let length = length(random, duration, start).min(most);
        windows.push(Window { start, length });
    }
    windows
}

/// Near the present minute, near the end of the window before, or elsewhere.
fn start(random: &mut Random, present: u32, duration: u32, end: u32) -> u32 {
    match random.below(10) {
        0 => (present + random.pick(&NEAR)) % WEEK,
        1 => (present + WEEK - duration + random.pick(&NEAR)) % WEEK,
        2..=5 => (end + random.pick(&NEAR)) % WEEK,
        _ => minute(random),
    }
}

/// Near the duration, near the end of the week, at a bound, or any.
fn length(random: &mut Random, duration: u32, start: u32) -> u32 {
    let length = match random.below(6) {
        0 | 1 => duration + random.below(3) - 1,
        2 => WEEK - start + random.below(3) - 1,
        3 => random.pick(&[1, 2, WEEK - 1, WEEK]),
        4 => random.between(1, 2 * duration),
        _ => random.between(1, WEEK),
    };
    length.clamp(1, WEEK)
}

fn any_window<'a>(random: &mut Random, windows: &'a mut [Window]) -> &'a mut Window {
    let number = random.below(windows.len() as u32) as usize;
    &mut windows[number]
}

/// No window, or more of the last than there may be.
fn refused_count(random: &mut Random, windows: &mut Vec<Window>) {
    let last = windows[windows.len() - 1];
    let most = MOST_WINDOWS;
    windows.resize(random.pick(&[0, most + 1, most + 2, 2 * most]), last);
}

fn refused_minute(random: &mut Random) -> u32 {
    let minute = minute(random);
    random.pick(&[WEEK, WEEK + 1, WEEK + minute, 65_536 + minute, 0xFFFF_FFFF])
}

/// 0, or above the most that is allowed.
fn refused_number(random: &mut Random, most: u32) -> u32 {
    random.pick(&[
        0,
        0,
        most + 1,
        most + 2,
        65_536 + most,
        0x8000_0001,
        0xFFFF_FFFF,
    ])
}
