//! Decline 3: "all 0 while WR is 0", and with WR = 1 the launched target, whatever NVMADDR holds.

use crate::cases::Case;
use crate::device::*;
use crate::geometry::{Geometry, ALL_ONES, LOWER_BOOT, LOWER_PROGRAM, UPPER_BOOT};

use super::super::impossible::calls_on;
use super::super::operations::*;
use super::super::parts::*;

pub fn cases() -> Vec<Case> {
    let mut cases = Vec::new();
    while_idle(&mut cases);
    free_operands(&mut cases);
    for geometry in [SMALL, SEVERAL] {
        targets(&geometry, &mut cases);
        protected_targets(&geometry, &mut cases);
    }
    nothing_launched(&mut cases);
    every_call(&mut cases);
    cases
}

/// Operands with one of the six at a value and the others at 0.
fn one_of_six(number: usize, value: u32) -> Operands {
    let mut operands = Operands::NONE;
    match number {
        0 => operands.address = value,
        5 => operands.source = value,
        _ => operands.data[number - 1] = value,
    }
    operands
}

/// WR = 0: each of the six at some value, and all as the registers.
fn while_idle(cases: &mut Vec<Case>) {
    for number in 0..6 {
        for value in [1, 0x8000_0000, ALL_ONES] {
            let device = with_launched(idle(), one_of_six(number, value));
            cases.push(possible_case(&SMALL, device));
        }
    }
    for device in [
        with_register(idle(), NVMSRCADDR, 4),
        ready(4, LOWER_PROGRAM),
        with_con(ready(4, LOWER_PROGRAM), WRERR),
    ] {
        cases.push(possible_case(&SMALL, device));
        let recorded = with_launched(device, device.loaded());
        cases.push(possible_case(&SMALL, recorded));
    }
}

/// WR = 1: data and source are free, and for NVMOP 5 to 7 the address too.
fn free_operands(cases: &mut Vec<Case>) {
    for nvmop in 2..8 {
        let device = launched(nvmop, LOWER_BOOT, 0);
        for number in 1..6 {
            let mut operands = one_of_six(number, ALL_ONES);
            operands.address = LOWER_BOOT;
            cases.push(possible_case(&SMALL, with_launched(device, operands)));
        }
        for address in [0, 1, LOWER_PROGRAM - 1, ALL_ONES] {
            let device = with_launched(device, later(address));
            cases.push(possible_case(&SMALL, device));
        }
    }
}

/// Both addresses around each window, one of them inside.
fn targets(geometry: &Geometry, cases: &mut Vec<Case>) {
    for nvmop in 2..5 {
        for window in WINDOWS {
            let (first, past) = (start(geometry, window), end(geometry, window));
            for address in [first - 1, first, past - 1, past] {
                let around = then_loaded(launched(nvmop, address, 0), later(UPPER_BOOT));
                let inside = then_loaded(launched(nvmop, UPPER_BOOT, 0), later(address));
                cases.push(possible_case(geometry, around));
                cases.push(possible_case(geometry, inside));
            }
        }
    }
}

/// A program page protected at one address and free at the other; a protected boot page is a target.
fn protected_targets(geometry: &Geometry, cases: &mut Vec<Case>) {
    let free = LOWER_PROGRAM + geometry.region_bytes();
    for nvmop in 2..5 {
        for (first, second) in [
            (LOWER_PROGRAM, free),
            (free, LOWER_PROGRAM),
            (LOWER_BOOT, LOWER_PROGRAM),
        ] {
            let device = then_loaded(launched(nvmop, first, 0), later(second));
            let device = with_register(with_pwp(device, 1), NVMBWP, RESETS[NVMBWP]);
            cases.push(possible_case(geometry, device));
        }
    }
}

/// WR = 1 beside good registers and six zeros: impossible for NVMOP 2 to 4.
fn nothing_launched(cases: &mut Vec<Case>) {
    for nvmop in 2..8 {
        let mut case = possible_case(&SMALL, running(nvmop, LOWER_PROGRAM, 0));
        case.device.launched = Operands::NONE;
        cases.push(case);
    }
}

/// Each of these reasons in each call that takes a device, and one that is just possible.
fn every_call(cases: &mut Vec<Case>) {
    let runs = launched(4, LOWER_PROGRAM, 0);
    for device in [
        with_launched(idle(), one_of_six(0, 1)),
        with_launched(idle(), one_of_six(3, 1)),
        with_launched(idle(), one_of_six(5, 1)),
        with_launched(runs, later(0)),
        with_launched(with_pwp(runs, 1), later(LOWER_PROGRAM + 1)),
        with_launched(runs, later(LOWER_PROGRAM + 128)),
    ] {
        cases.extend(calls_on(device));
    }
}
