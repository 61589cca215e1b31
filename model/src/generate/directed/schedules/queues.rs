//! Who waits: the order of the queue, who leaves it, and who is passed over in it.

use crate::cases::Case;
use crate::schedule::MOST_SIGNS;

use super::members::*;
use super::Bench;

pub fn cases() -> Vec<Case> {
    let mut cases = Vec::new();
    begin(&mut cases);
    met(&mut cases);
    orders(&mut cases);
    passed_over(&mut cases);
    not_from_the_round(&mut cases);
    idle(&mut cases);
    full(&mut cases);
    cases
}

/// "those of one call in record order", wherever the round begins, behind those that waited before.
fn begin(cases: &mut Vec<Case>) {
    let makes: [Make; 5] = [launching, launching, stepping, launching, launching];
    let bench = Bench::small(&row(&makes));
    for last in 0..5 {
        let bench = bench.after(last);
        for queue in [&[][..], &[4], &[3, 0], &[4, 3, 1, 0], &[3, 2]] {
            cases.push(bench.waiting(queue).call(1));
            cases.push(bench.waiting(queue).call(2));
        }
    }
}

/// Only signs that the search met before the served one begin to wait.
fn met(cases: &mut Vec<Case>) {
    for served in 0..4 {
        for make in [ordinary, stepping, failing] {
            let mut makes: [Make; 5] = [launching, launching, launching, launching, busy];
            makes[served] = make;
            let bench = Bench::small(&row(&makes));
            for last in [0, 2, 4] {
                cases.push(bench.after(last).call(1));
            }
        }
    }
}

/// "the longest waiting, the first of these in the queue, which then leaves it": every order of three, and others beside them.
fn orders(cases: &mut Vec<Case>) {
    const ORDERS: [[u32; 3]; 6] = [
        [0, 1, 2],
        [0, 2, 1],
        [1, 0, 2],
        [1, 2, 0],
        [2, 0, 1],
        [2, 1, 0],
    ];
    for order in ORDERS {
        for fourth in [ordinary, launching] {
            let bench = Bench::small(&row(&[launching, launching, launching, fourth]));
            for count in 1..=3 {
                let bench = bench.waiting(&order[..count]);
                cases.push(bench.call(1));
                cases.push(bench.after(order[0]).call(2));
            }
        }
    }
}

/// A waiting sign that is finished, or whose turn is declined, keeps its position; the next in the queue is served.
fn passed_over(cases: &mut Vec<Case>) {
    for make in PASSED_OVER {
        let bench = Bench::small(&row(&[make, launching, ordinary, launching]));
        for queue in [&[0][..], &[0, 3, 1], &[3, 0, 1], &[0, 2]] {
            for most in 1..=2 {
                cases.push(bench.waiting(queue).call(most));
            }
        }
        let bench = Bench::small(&row(&[make, make, launching, stepping]));
        for queue in [&[1, 0][..], &[1, 0, 2]] {
            for most in 1..=2 {
                cases.push(bench.waiting(queue).call(most));
            }
        }
    }
}

/// "unfinished and not waiting": a queued sign is served from the queue alone, though its turn would set no WR.
fn not_from_the_round(cases: &mut Vec<Case>) {
    for make in [ordinary, stepping, ending, failing, barred, locked] {
        let bench = Bench::small(&row(&[make, busy, launching]));
        for queue in [&[0][..], &[0, 2], &[2, 0], &[0, 1, 2]] {
            for last in [0, 2] {
                cases.push(bench.after(last).waiting(queue).call(1));
            }
            cases.push(bench.waiting(queue).call(3));
        }
    }
}

/// "With nobody to serve the call says idle": new waiters join, and the last served stays.
fn idle(cases: &mut Vec<Case>) {
    let rows: [&[Make]; 6] = [
        &[busy, launching, launching],
        &[launching, busy, launching],
        &[launching, launching, impossible_running],
        &[finished, finished, finished],
        &[finished, idling, past],
        &[finished_running, launching, finished],
    ];
    for makes in rows {
        let bench = Bench::small(&row(makes));
        for last in 0..3 {
            for queue in [&[][..], &[1], &[2, 1], &[0, 1, 2]] {
                cases.push(bench.after(last).waiting(queue).call(1));
            }
        }
    }
}

/// The most signs, all of which begin to wait or wait already, in order and in the opposite order.
fn full(cases: &mut Vec<Case>) {
    let most = MOST_SIGNS as u32;
    let bare_busy = busy(0).device;
    let launching = vec![bare_launching(); MOST_SIGNS];
    let mut members = launching.clone();
    members[5] = bare().with(bare_busy);
    let orders: [Vec<u32>; 2] = [(0..most).collect(), (0..most).rev().collect()];
    for bench in [Bench::small(&launching), Bench::small(&members)] {
        for last in [0, 5, 6, most - 1] {
            cases.push(bench.after(last).call(1));
        }
        for order in &orders {
            cases.push(bench.waiting(order).call(1));
            cases.push(bench.waiting(order).call(2));
            cases.push(bench.waiting(&order[..31]).call(1));
        }
    }
}
