//! What a store does while an operation runs, by itself and as a turn's action; what a launch records.

use crate::cases::Case;
use crate::device::*;
use crate::geometry::{ALL_ONES, LOWER_BOOT, LOWER_PROGRAM, UPPER_BOOT};
use crate::store::{CLEAR, INVERT, PLAIN, SET};
use crate::update::{program_place, total};

use super::super::operations::*;
use super::super::parts::*;

pub fn cases() -> Vec<Case> {
    let mut cases = Vec::new();
    every_register_and_form(&mut cases);
    every_operation(&mut cases);
    single_values(&mut cases);
    read_back(&mut cases);
    other_calls(&mut cases);
    turns(&mut cases);
    recorded(&mut cases);
    not_recorded(&mut cases);
    cases
}

/// Registers 0 to 11 with forms 0 to 4, before the first step and in the middle.
fn every_register_and_form(cases: &mut Vec<Case>) {
    for register in 0..REGISTERS + 1 {
        for form in PLAIN..=INVERT + 1 {
            for device in [
                launched(4, LOWER_PROGRAM, 0),
                then_loaded(launched(4, LOWER_PROGRAM, 3), later(UPPER_BOOT)),
            ] {
                cases.push(store(&SMALL, device, register, form, 0x5F00_C0F1));
            }
        }
    }
}

/// Each NVMOP at its last step; WREN and the mapping are free.
fn every_operation(cases: &mut Vec<Case>) {
    for (nvmop, last) in [(2, 0), (3, 0), (4, 7), (5, 7), (6, 7), (7, 15)] {
        for (bits, register) in [(0, NVMADDR), (BFSWAP, NVMDATA0 + 3), (PFSWAP, NVMSRCADDR)] {
            let device = with_con(launched(nvmop, UPPER_BOOT + 77, last), bits);
            cases.push(store(&SMALL, device, register, PLAIN, LOWER_PROGRAM));
            let disabled = with_register(device, NVMCON, device.registers[NVMCON] & !WREN);
            cases.push(store(&SMALL, disabled, register, SET, 0x8000_0001));
            cases.push(store(&SMALL, disabled, NVMCON, SET, WREN));
        }
    }
}

/// The ends of each register's range, and the value that it has.
fn single_values(cases: &mut Vec<Case>) {
    for register in NVMADDR..=NVMSRCADDR {
        let device = launched(2, LOWER_PROGRAM + 5, 0);
        for value in [0, 1, 0x8000_0000, ALL_ONES, device.registers[register]] {
            cases.push(store(&SMALL, device, register, PLAIN, value));
        }
    }
}

/// A register read gives the new value.
fn read_back(cases: &mut Vec<Case>) {
    let device = then_loaded(launched(2, LOWER_PROGRAM, 0), later(LOWER_BOOT));
    for register in 0..REGISTERS as u32 + 1 {
        cases.push(register_read(&SMALL, device, register));
    }
}

/// Start-up and update start are still declined; the lower bank and the sheet are given.
fn other_calls(cases: &mut Vec<Case>) {
    let banks = blank(&SMALL);
    for nvmop in [2, 4, 7] {
        let device = then_loaded(launched(nvmop, LOWER_PROGRAM, 0), later(UPPER_BOOT));
        cases.push(start_up(&SMALL, device));
        cases.push(update_start(&SMALL, device, &banks, &banks[0]));
        cases.push(lower_bank(&SMALL, device, &banks));
        cases.push(page_sheet(&SMALL, device, &banks, &[0; 68]));
    }
}

/// A turn at each kind of place: stores to the six are done, others declined, a step is one of the launched operation. A row lacks its data.
fn turns(cases: &mut Vec<Case>) {
    let programming = program_place(&SMALL);
    let mut places = vec![0, 1, 2, 3, 6, 7, 11, 12, 13, 14, 15, 18, 19, 27];
    places.extend((0..13).map(|number| programming + number));
    places.extend([total(&SMALL) - 13, total(&SMALL), total(&SMALL) + 1]);
    let image: Vec<u32> = (1_000..1_064).collect();
    for (nvmop, fill) in [(2, ALL_ONES), (3, ALL_ONES), (4, 0)] {
        let first = launched(nvmop, LOWER_PROGRAM + 128, 0);
        let banks = filled(&SMALL, fill);
        for device in [first, then_loaded(first, later(UPPER_BOOT))] {
            for place in &places {
                cases.push(turn(&SMALL, device, &banks, &image, &[], *place));
            }
        }
    }
}

/// A launching store records the six as they stood, unrounded, by whatever form.
fn recorded(cases: &mut Vec<Case>) {
    for nvmop in 2..8 {
        for (form, value) in [(SET, WR), (PLAIN, WR | WREN), (PLAIN, WR), (INVERT, WR)] {
            let device = ready(nvmop, LOWER_PROGRAM + 0x4D);
            let device = with_register(device, NVMSRCADDR, 0x0FED_CBA9);
            cases.push(store(&SEVERAL, device, NVMCON, form, value));
        }
    }
    for register in NVMADDR..=NVMSRCADDR {
        let device = with_register(ready(5, 0), register, ALL_ONES - 1);
        cases.push(launch(&SMALL, device));
    }
}

/// A launch that fails, or does not begin, or is none, leaves all six at 0.
fn not_recorded(cases: &mut Vec<Case>) {
    let good = with_register(ready(4, LOWER_PROGRAM + 3), NVMSRCADDR, 4);
    for device in [
        with_register(good, NVMADDR, LOWER_PROGRAM - 1),
        with_pwp(good, 1),
        with_con(good, WRERR),
        with_con(good, LVDERR),
        with_con(good, 8),
        with_register(good, NVMCON, WREN),
        with_register(good, NVMCON, WREN | 1),
        with_register(good, NVMCON, 4),
        with_key(good, 2),
    ] {
        cases.push(launch(&SMALL, device));
    }
    cases.push(store(&SMALL, good, NVMCON, CLEAR, WR));
}
