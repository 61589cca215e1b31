//! Decline 3: each clause alone, beside a device to which it just does not apply.

use crate::cases::Case;
use crate::device::*;
use crate::geometry::{Geometry, ALL_ONES, LOWER_PROGRAM, ROW_QUADS};

use super::parts::*;

pub fn cases() -> Vec<Case> {
    let mut cases = Vec::new();
    single_bits(&mut cases);
    key_steps(&mut cases);
    idle_steps(&mut cases);
    errors(&mut cases);
    every_nvmop(&mut cases);
    for row_quads in ROW_QUADS {
        lengths(&geometry(row_quads, 1, 1), &mut cases);
    }
    for geometry in [MANY_PAGES, SEVERAL, LARGEST] {
        lengths(&geometry, &mut cases);
    }
    for geometry in [SMALL, SEVERAL] {
        targets(&geometry, &mut cases);
        protected_targets(&geometry, &mut cases);
        regions(&geometry, &mut cases);
    }
    every_call(&mut cases);
    cases
}

/// Each bit of each register flipped in the reset values.
fn single_bits(cases: &mut Vec<Case>) {
    for register in [NVMCON, NVMKEY, NVMPWP, NVMBWP, NVMCON2] {
        for bit in 0..32 {
            let value = RESETS[register] ^ (1 << bit);
            let device = with_register(idle(), register, value);
            cases.push(possible_case(&SMALL, device));
        }
    }
    for (register, mask) in MASKS.into_iter().enumerate() {
        for value in [0, mask, ALL_ONES, mask & !WR] {
            let device = with_register(idle(), register, value);
            cases.push(possible_case(&SMALL, device));
        }
    }
}

/// Key steps above 3; with WR = 1 any but 0.
fn key_steps(cases: &mut Vec<Case>) {
    for key_step in [0, 1, 2, 3, 4, 5, 256, ALL_ONES] {
        for device in [idle(), running(4, LOWER_PROGRAM, 0)] {
            cases.push(possible_case(&SMALL, with_key(device, key_step)));
        }
    }
}

/// "WR = 0 with step number not 0".
fn idle_steps(cases: &mut Vec<Case>) {
    for step_number in [0, 1, 7, 256, ALL_ONES] {
        for nvmop in [0, 4, 7] {
            let device = with_key(ready(nvmop, LOWER_PROGRAM), 0);
            cases.push(possible_case(&SMALL, with_step(device, step_number)));
        }
    }
}

/// With WR = 1: WRERR = 0, LVDERR = 1; WREN is free.
fn errors(cases: &mut Vec<Case>) {
    for nvmop in 2..8 {
        for errors in [0, WRERR, LVDERR, WRERR | LVDERR] {
            for wren in [0, WREN] {
                let device = running(nvmop, LOWER_PROGRAM, 0);
                let device = with_register(device, NVMCON, WR | errors | wren | nvmop);
                cases.push(possible_case(&SMALL, device));
            }
        }
    }
}

/// "an NVMOP .. for which no steps begin".
fn every_nvmop(cases: &mut Vec<Case>) {
    for nvmop in 0..16 {
        for mapping in MAPPINGS {
            let device = with_con(running(nvmop, LOWER_PROGRAM, 0), mapping);
            cases.push(possible_case(&SMALL, device));
        }
    }
}

/// "step number not below its length".
fn lengths(geometry: &Geometry, cases: &mut Vec<Case>) {
    let (row, page) = (geometry.row_quads, geometry.page_quads());
    let region = page * geometry.program_pages;
    let lengths = [1, row, page, region, region, 2 * region];
    for (nvmop, length) in (2..8).zip(lengths) {
        for step_number in each_once(&[0, length - 1, length, length + 1, ALL_ONES]) {
            let device = running(nvmop, LOWER_PROGRAM, step_number);
            cases.push(possible_case(geometry, device));
        }
    }
}

/// Targets of NVMOP 2 to 4 around each window; NVMOP 5 to 7 have no address.
fn targets(geometry: &Geometry, cases: &mut Vec<Case>) {
    for nvmop in 2..8 {
        for window in WINDOWS {
            let (first, past) = (start(geometry, window), end(geometry, window));
            for address in [first - 1, first, past - 1, past] {
                if nvmop < 5 || address == past {
                    cases.push(possible_case(geometry, running(nvmop, address, 0)));
                }
            }
        }
    }
}

/// A protected program page is no target, a protected boot page is.
fn protected_targets(geometry: &Geometry, cases: &mut Vec<Case>) {
    for nvmop in 2..5 {
        for window in WINDOWS {
            let address = end(geometry, window) - 1;
            let page = address + 1 - geometry.page_bytes();
            let offset = page.wrapping_sub(LOWER_PROGRAM) & PWP;
            for pwp in each_once(&[0, offset.saturating_sub(1), offset, offset + 1]) {
                let device = with_pwp(running(nvmop, address, 0), pwp & PWP);
                let device = with_register(device, NVMBWP, RESETS[NVMBWP]);
                cases.push(possible_case(geometry, device));
            }
        }
    }
}

/// Regions of which a page is protected.
fn regions(geometry: &Geometry, cases: &mut Vec<Case>) {
    let (page, region) = (geometry.page_bytes(), geometry.region_bytes());
    for nvmop in 5..8 {
        for pwp in each_once(&[0, 1, page, region - 1, region, 2 * region, PWP]) {
            let device = with_con(with_pwp(running(nvmop, 0, 0), pwp), PFSWAP);
            cases.push(possible_case(geometry, device));
        }
    }
}

/// Devices impossible for one reason each.
pub fn reasons() -> Vec<Device> {
    let runs = running(4, LOWER_PROGRAM, 0);
    vec![
        with_con(idle(), 0x10),
        with_register(idle(), NVMPWP, 0x8100_0000),
        with_register(idle(), NVMBWP, RESETS[NVMBWP] | 0x20),
        with_register(idle(), NVMCON2, RESETS[NVMCON2] | 1),
        with_register(idle(), NVMBWP, RESETS[NVMBWP] & !BWP_ALWAYS),
        with_register(idle(), NVMKEY, 1),
        with_key(idle(), 4),
        with_step(idle(), 1),
        with_key(runs, 1),
        with_register(runs, NVMCON, runs.registers[NVMCON] & !WRERR),
        with_con(runs, LVDERR),
        with_con(runs, 8),
        with_register(runs, NVMADDR, 0),
        with_pwp(runs, 1),
        with_step(runs, 8),
    ]
}

/// Each reason in each call that takes a device.
fn every_call(cases: &mut Vec<Case>) {
    for device in reasons() {
        cases.extend(calls_on(device));
    }
}

/// One of each of the base's calls that take a device.
pub fn calls_on(device: Device) -> [Case; 9] {
    let banks = filled(&SMALL, 0);
    [
        store(&SMALL, device, NVMADDR, 0, 1),
        register_read(&SMALL, device, 0),
        flash_read(&SMALL, device, &banks, LOWER_PROGRAM + 128),
        lower_bank(&SMALL, device, &banks),
        step(&SMALL, device, &banks, &[]),
        reset(&SMALL, device, &banks, &[], 2, [ALL_ONES; 4]),
        start_up(&SMALL, device),
        update_start(&SMALL, device, &banks, &banks[0]),
        turn(&SMALL, device, &banks, &banks[0], &[], 0),
    ]
}
