//! NVMKEY: every value at every key step, every form, and what closes the key.

use crate::cases::Case;
use crate::device::*;
use crate::geometry::{ALL_ONES, LOWER_PROGRAM};
use crate::store::{CLEAR, INVERT, KEYS, PLAIN};

use super::parts::*;

pub fn cases() -> Vec<Case> {
    let mut cases = Vec::new();
    for key_step in 0..4 {
        key_values(key_step, &mut cases);
        key_forms(key_step, &mut cases);
        other_stores(key_step, &mut cases);
        reads(key_step, &mut cases);
    }
    cases
}

/// The three keys, and values one bit off each.
fn key_values(key_step: u32, cases: &mut Vec<Case>) {
    for key in KEYS {
        for value in [key, key ^ 1, key ^ 0x8000_0000] {
            let device = with_key(with_con(idle(), WREN | 2), key_step);
            cases.push(store(&SMALL, device, NVMKEY, PLAIN, value));
        }
    }
    let device = with_key(idle(), key_step);
    cases.push(store(&SMALL, device, NVMKEY, PLAIN, ALL_ONES));
}

/// "NVMKEY has form 0 only".
fn key_forms(key_step: u32, cases: &mut Vec<Case>) {
    for form in [CLEAR, 2, INVERT, 4, ALL_ONES] {
        let device = with_key(idle(), key_step);
        for key in KEYS {
            cases.push(store(&SMALL, device, NVMKEY, form, key));
        }
    }
}

/// "Any other accepted store .. sets it to 0 afterwards".
fn other_stores(key_step: u32, cases: &mut Vec<Case>) {
    for register in (0..REGISTERS).filter(|register| *register != NVMKEY) {
        let device = with_key(idle(), key_step);
        cases.push(store(&SMALL, device, register, PLAIN, 0));
    }
}

/// "any register read", while idle, and while an operation runs.
fn reads(key_step: u32, cases: &mut Vec<Case>) {
    let mut device = with_key(idle(), key_step);
    device.registers[NVMCON] = MASKS[NVMCON] & !WR;
    device.registers[NVMADDR] = 0x1234_5678;
    device.registers[NVMSRCADDR] = 0x8765_4321;
    device.registers[NVMPWP] = 0x8055_AA55;
    device.registers[NVMCON2] = 0xA015_9240;
    for register in 0..REGISTERS as u32 {
        cases.push(register_read(&SMALL, device, register));
        if key_step == 0 {
            let device = running(4, LOWER_PROGRAM, 3);
            cases.push(register_read(&SMALL, device, register));
        }
    }
}
