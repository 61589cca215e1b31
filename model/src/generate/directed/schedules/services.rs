//! Who is served: each kind of sign beside each other, around K.

use crate::cases::Case;
use crate::device::*;
use crate::geometry::{Geometry, Kind, Side};
use crate::update::total;

use super::super::parts::*;
use super::members::*;
use super::Bench;

pub fn cases() -> Vec<Case> {
    let mut cases = Vec::new();
    alone(&mut cases);
    pairs(&mut cases);
    triples(&mut cases);
    more_than_most(&mut cases);
    round(&mut cases);
    larger(&mut cases);
    cases
}

/// A row of one: it is the last served itself, and waits or not.
fn alone(cases: &mut Vec<Case>) {
    for make in [&SERVED[..], &PASSED_OVER].concat() {
        let bench = Bench::small(&row(&[make]));
        for most in [1, 2] {
            cases.push(bench.call(most));
            cases.push(bench.waiting(&[0]).call(most));
        }
    }
}

/// Kinds beside each other: nobody waits, the first waits, both wait.
fn pairs(cases: &mut Vec<Case>) {
    let makes: [Make; 9] = [
        ordinary,
        launching,
        stepping,
        failing,
        finished,
        impossible,
        impossible_running,
        busy,
        idling,
    ];
    for first in makes {
        for second in makes {
            let bench = Bench::small(&row(&[first, second]));
            cases.push(bench.call(1));
            cases.push(bench.after(0).waiting(&[0]).call(1));
            cases.push(bench.waiting(&[1, 0]).call(2));
        }
    }
}

/// Three signs, one or two of which wait, under K = 1 and K = 2.
fn triples(cases: &mut Vec<Case>) {
    let makes: [Make; 4] = [ordinary, launching, stepping, idling];
    for first in makes {
        for second in makes {
            for third in makes {
                let bench = Bench::small(&row(&[first, second, third]));
                cases.push(bench.after(0).waiting(&[2]).call(1));
                cases.push(bench.after(1).waiting(&[2, 0]).call(2));
            }
        }
    }
}

/// "No call raises the number of signs with WR set above K": more than K are set already, and the call is not declined.
fn more_than_most(cases: &mut Vec<Case>) {
    let rows: [&[Make]; 7] = [
        &[stepping, stepping, stepping],
        &[stepping, ending, launching],
        &[stepping, stepping, failing],
        &[busy, impossible_running, finished_running, launching],
        &[busy, impossible_running, ordinary, launching],
        &[stepping, stepping, launching, launching],
        &[finished_running, finished_running, finished, idling],
    ];
    for makes in rows {
        let bench = Bench::small(&row(makes));
        for most in 1..=4 {
            cases.push(bench.call(most));
            cases.push(bench.after(0).waiting(&[2]).call(most));
        }
    }
}

/// "the first after the last served, round the list": one sign is served and the others are passed over, itself the last candidate.
fn round(cases: &mut Vec<Case>) {
    for served in 0..4 {
        for make in [finished, idling] {
            let mut makes: [Make; 4] = [make; 4];
            makes[served] = ordinary;
            let bench = Bench::small(&row(&makes));
            for last in 0..4 {
                cases.push(bench.after(last).call(1));
            }
        }
    }
    let bench = Bench::small(&row(&[ordinary as Make; 4]));
    for last in 0..4 {
        cases.push(bench.after(last).call(1));
        cases.push(bench.after(last).waiting(&[3, 1]).call(1));
    }
}

/// Signs with more pages and longer rows, whose launches and steps stand elsewhere.
fn larger(cases: &mut Vec<Case>) {
    for geometry in [SEVERAL, geometry(128, 1, 1), LARGEST] {
        let start = geometry.window_start(Kind::Program, Side::Upper);
        let past = total(&geometry);
        for count in 1..=2 {
            for (device, place) in [
                (idle(), 0),
                (ready(4, start), LAUNCH),
                (running_at(&geometry), FIRST_STEP),
                (idle(), past - 1),
                (idle(), past),
                (idle(), past + 1),
            ] {
                let members = (0..count).map(|number| {
                    let sign = sign(geometry, number, false);
                    reached(&sign, 0).with(device).placed(place)
                });
                let bench = Bench::new(geometry, &members.collect::<Vec<_>>());
                cases.push(bench.call(1));
                cases.push(bench.waiting(&[0]).call(2));
            }
        }
    }
}

/// A page erase of the boot page that holds the word of each sign's own.
fn running_at(geometry: &Geometry) -> Device {
    let start = geometry.window_start(Kind::Boot, Side::Upper);
    as_launched(running(4, start, 0))
}
