//! Which records go: the lowest first, from the top again after each, until none can.

use crate::cases::Case;
use crate::device::*;
use crate::geometry::LOWER_PROGRAM;
use crate::script::Record;
use crate::smallest::MOST_RECORDS;
use crate::store::{INVERT, PLAIN};

use super::super::parts::*;
use super::{key_form, launch, launch_loaded, locked_store, steps, store, Bench};

pub fn cases() -> Vec<Case> {
    let mut cases = Vec::new();
    each_number(&mut cases);
    short_scripts(&mut cases);
    lowest_first(&mut cases);
    from_the_top(&mut cases);
    none_can_go(&mut cases);
    zeros(&mut cases);
    undone(&mut cases);
    most_records(&mut cases);
    cases
}

/// A script that shows 4, 5 and 6, at rest and while an operation runs, and rows of its records.
fn each_number(cases: &mut Vec<Case>) {
    let script = [
        &[store(NVMDATA0, PLAIN, 7), key_form(1)][..],
        &launch(2, LOWER_PROGRAM),
        &[locked_store(1), Record::Step],
        &steps(2),
        &[Record::Reset { kind: 2 }, Record::Step, key_form(2)],
    ]
    .concat();
    for bench in [Bench::at_rest(), Bench::running()] {
        for number in [4, 5, 6] {
            cases.push(bench.reduce(&script, number));
            for first in 0..script.len() {
                cases.push(bench.reduce(&script[first..], number));
                cases.push(bench.reduce(&script[..first], number));
            }
        }
    }
}

/// Every script of two and of three records among some, while a quad program runs.
fn short_scripts(cases: &mut Vec<Case>) {
    let records = [
        Record::Step,
        Record::Reset { kind: 1 },
        key_form(1),
        store(NVMCON, PLAIN, 0),
    ];
    let bench = Bench::running();
    for number in [4, 5, 6] {
        for first in records {
            for second in records {
                cases.push(bench.reduce(&[first, second], number));
                cases.extend(records.map(|third| bench.reduce(&[first, second, third], number)));
            }
        }
    }
}

/// Records each of which shows the number: the last one stays.
fn lowest_first(cases: &mut Vec<Case>) {
    for count in [2, 3, 8] {
        let forms: Vec<Record> = (0..count).map(key_form).collect();
        cases.push(Bench::at_rest().reduce(&forms, 4));
        let stores: Vec<Record> = (0..count).map(locked_store).collect();
        cases.push(Bench::running().reduce(&stores, 5));
        let script = [launch(4, LOWER_PROGRAM), stores].concat();
        cases.push(Bench::at_rest().reduce(&script, 5));
    }
}

/// WREN inverted twice keeps a launch from beginning, so that the step is declined; without one of them it begins. Once a record of the
/// launch is gone, both can go.
fn from_the_top(cases: &mut Vec<Case>) {
    let mut bench = Bench::at_rest();
    bench.device = with_register(with_con(bench.device, 4), NVMADDR, LOWER_PROGRAM);
    let invert = store(NVMCON, INVERT, WREN);
    for count in [2, 4, 6] {
        let front = vec![invert; count];
        for more in 0..3 {
            let behind = vec![store(NVMDATA0, PLAIN, 1); more];
            let script = [&front[..], &launch_loaded(), &[Record::Step], &behind].concat();
            cases.push(bench.reduce(&script, 6));
            let script = [&behind[..], &front, &launch_loaded(), &[Record::Step]].concat();
            cases.push(bench.reduce(&script, 6));
        }
    }
}

/// Each of the steps that are left of an erase is needed, and one more that is declined; records behind it can go, and one step more too.
fn none_can_go(cases: &mut Vec<Case>) {
    for done in [0, 1, 5, 7] {
        let bench = Bench::new(SMALL, running(4, LOWER_PROGRAM, done));
        let left = 8 - done as usize;
        for count in [left, left + 1, left + 2] {
            cases.push(bench.reduce(&steps(count), 6));
            let script = [steps(count), vec![key_form(0); 2]].concat();
            cases.push(bench.reduce(&script, 6));
            cases.push(bench.reduce(&script, 5));
        }
    }
}

/// Records of zeros, NVMCON plain 0, that are needed: the one that is declined as 5, and the one that clears WREN, so that the NVMOP of the
/// next store is taken.
fn zeros(cases: &mut Vec<Case>) {
    let zero = store(NVMCON, PLAIN, 0);
    for count in 1..4 {
        cases.push(Bench::running().reduce(&vec![zero; count], 5));
    }
    let mut bench = Bench::at_rest();
    let device = with_con(bench.device, WREN | 15);
    bench.device = with_register(device, NVMADDR, LOWER_PROGRAM);
    let erase = [
        &[zero, store(NVMCON, PLAIN, WREN | 4)][..],
        &launch_loaded(),
        &[zero],
    ]
    .concat();
    cases.push(bench.reduce(&erase, 5));
    cases.push(bench.reduce(&[&[zero][..], &erase, &[zero]].concat(), 5));
    cases.push(bench.reduce(&erase[1..], 5));
}

/// Two records that undo each other stay, as each alone would hide the number, though it is shown without both.
fn undone(cases: &mut Vec<Case>) {
    let mut bench = Bench::at_rest();
    bench.device = with_register(with_con(bench.device, WREN | 4), NVMADDR, LOWER_PROGRAM);
    let invert = store(NVMCON, INVERT, WREN);
    for count in 0..4 {
        let front = vec![invert; count];
        let script = [&front[..], &launch_loaded(), &[locked_store(1)]].concat();
        cases.push(bench.reduce(&script, 5));
    }
}

/// As many records as are taken: all of them needed, one of them, and half of them with as many trials for each that goes.
fn most_records(cases: &mut Vec<Case>) {
    let page = Bench::new(geometry(8, 1, 1), running(4, LOWER_PROGRAM, 1));
    cases.push(page.reduce(&steps(MOST_RECORDS), 6));
    cases.push(page.reduce(&steps(MOST_RECORDS - 1), 6));
    let forms: Vec<Record> = (0..MOST_RECORDS as u32).map(key_form).collect();
    cases.push(Bench::at_rest().reduce(&forms, 4));
    let half = MOST_RECORDS / 2;
    let bench = Bench::new(geometry(4, 1, 1), running(4, LOWER_PROGRAM, 1));
    let script = [steps(half), vec![store(NVMDATA0, PLAIN, 1); half]].concat();
    cases.push(bench.reduce(&script, 6));
}
