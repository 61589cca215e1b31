//! Lists of calls, each on what the one before left.

use crate::cases::Case;
use crate::schedule::MOST_SIGNS;
use crate::update::total;

use super::super::parts::*;
use super::members::*;
use super::Bench;

pub fn cases() -> Vec<Case> {
    let mut cases = Vec::new();
    whole(&mut cases);
    fresh(&mut cases);
    alternating(&mut cases);
    behind(&mut cases);
    changing(&mut cases);
    odd(&mut cases);
    counts(&mut cases);
    cases
}

fn same(most: u32, count: u32) -> Vec<u32> {
    vec![most; count as usize]
}

/// The whole updates of one, two and five signs, and two calls more.
fn whole(cases: &mut Vec<Case>) {
    for swapped in [false, true] {
        let mut bench = Bench::small(&[reached(&sign(SMALL, 0, swapped), 0)]);
        bench.image[40] = 0x1234_5678;
        cases.push(bench.calls(&same(1, total(&SMALL) + 2)));
    }
    for (count, most) in [(2, 1), (2, 2), (5, 1), (5, 2)] {
        let signs = (0..count).map(|number| sign(SMALL, number, number % 2 == 1));
        let members: Vec<Member> = signs.map(|sign| reached(&sign, 0)).collect();
        let mut bench = Bench::small(&members);
        bench.image[40] = 0x1234_5678;
        cases.push(bench.calls(&same(most, count * total(&SMALL) + 2)));
    }
}

/// Rows that nobody served, up to the first launches and past them; the most signs among them.
fn fresh(cases: &mut Vec<Case>) {
    for count in [1, 2, 3, 4] {
        let members: Vec<Member> = (0..count).map(ordinary).collect();
        let bench = Bench::small(&members);
        for most in 1..=3 {
            for calls in [count * LAUNCH, count * LAUNCH + 1, count * (LAUNCH + 12)] {
                cases.push(bench.calls(&same(most, calls)));
            }
        }
    }
    let most = MOST_SIGNS as u32;
    for bench in [
        Bench::small(&vec![bare(); MOST_SIGNS]),
        Bench::small(&vec![bare_launching(); MOST_SIGNS]),
    ] {
        for operations in [1, 2, 31, 32] {
            cases.push(bench.calls(&same(operations, 2 * most + 1)));
        }
    }
}

/// "no sign sets WR twice while one and the same other sign .. waits": signs that launch in turn, under each K.
fn alternating(cases: &mut Vec<Case>) {
    let rows: [&[Make]; 6] = [
        &[launching, launching],
        &[launching, launching, launching],
        &[launching, stepping],
        &[ending, launching, launching],
        &[launching, ending, stepping, launching],
        &[stepping, stepping],
    ];
    for makes in rows {
        let bench = Bench::small(&row(makes));
        for most in 1..=3 {
            for calls in [2, 10, 11, 40] {
                cases.push(bench.calls(&same(most, calls)));
            }
        }
    }
}

/// Signs behind their first erase, whose launches follow each other after few calls.
fn behind(cases: &mut Vec<Case>) {
    for places in [[54, 54, 54], [54, 55, 56], [54, 67, 55], [53, 54, 246]] {
        let members = places.into_iter().zip(0..);
        let members: Vec<Member> = members.map(|(place, number)| at(number, place)).collect();
        let bench = Bench::small(&members);
        for most in 1..=3 {
            for last in [0, 2] {
                cases.push(bench.after(last).calls(&same(most, 60)));
            }
        }
    }
}

/// K falls and rises between calls, and is out of its range: such a call is declined, and the next finds what the last left.
fn changing(cases: &mut Vec<Case>) {
    let bench = Bench::small(&row(&[launching, launching, launching, ordinary]));
    let numbers: [&[u32]; 7] = [
        &[3, 1, 1, 1, 1],
        &[1, 3, 3, 3, 3],
        &[2, 2, 1, 1, 2, 2, 3, 3],
        &[1, 0, 1, 33, 1],
        &[0, 33, 1, 1],
        &[1, 1, 1, 1, 32, 32, 32],
        &[2, 0, 0, 2, 2],
    ];
    for most in numbers {
        for last in [1, 3] {
            cases.push(bench.after(last).calls(most));
            cases.push(bench.after(last).waiting(&[2, 0]).calls(most));
        }
    }
}

/// Signs that are passed over among the others, waiting or not.
fn odd(cases: &mut Vec<Case>) {
    for make in PASSED_OVER {
        let bench = Bench::small(&row(&[launching, make, launching]));
        for queue in [&[][..], &[1], &[2, 1, 0]] {
            for most in 1..=2 {
                cases.push(bench.waiting(queue).calls(&same(most, 25)));
            }
        }
    }
}

/// No call, and rows that no call accepts.
fn counts(cases: &mut Vec<Case>) {
    let bench = Bench::small(&row(&[launching, stepping]));
    for queue in [&[][..], &[1, 0], &[2], &[1, 1]] {
        cases.push(bench.waiting(queue).calls(&[]));
        cases.push(bench.waiting(queue).calls(&[2, 2]));
        cases.push(bench.after(2).waiting(queue).calls(&[2, 2]));
    }
    cases.push(Bench::small(&[]).calls(&[]));
    cases.push(Bench::small(&[]).calls(&[1, 1]));
    let none = geometry(3, 1, 1);
    cases.push(Bench::new(none, &[]).calls(&[1, 0]));
}
