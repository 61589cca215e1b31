//! Start-up: by BFSWAP, and under the conditions of its stores.

use crate::cases::Case;
use crate::device::*;
use crate::geometry::LOWER_PROGRAM;

use super::parts::*;

pub fn cases() -> Vec<Case> {
    let mut cases = Vec::new();
    for mapping in MAPPINGS {
        conditions(mapping, &mut cases);
        other_values(mapping, &mut cases);
        while_running(mapping, &mut cases);
    }
    cases
}

/// PFSWAP is set where WREN and SWAPLOCK let it, whatever the key step was.
fn conditions(mapping: u32, cases: &mut Vec<Case>) {
    for wren in [0, WREN] {
        for lock in [0, 0x40, 0x80, 0xC0] {
            for key_step in 0..4 {
                let device = with_con(idle(), mapping | wren | 4);
                let device = with_register(device, NVMCON2, RESETS[NVMCON2] | lock);
                cases.push(start_up(&SMALL, with_key(device, key_step)));
            }
        }
    }
}

/// Errors, NVMOP and the other registers stay.
fn other_values(mapping: u32, cases: &mut Vec<Case>) {
    for errors in [WRERR, LVDERR, WRERR | LVDERR] {
        let mut device = with_con(idle(), mapping | errors | 0xF);
        device.registers[NVMADDR] = 0x0FF0_A55A;
        device.registers[NVMSRCADDR] = 0xF00F_5AA5;
        device.registers[NVMPWP] = 0x0012_3456;
        device.registers[NVMBWP] = BWP_ALWAYS | 0x0A15;
        device.registers[NVMCON2] = 0xA00A_9200;
        cases.push(start_up(&SMALL, device));
    }
}

/// Decline 5.
fn while_running(mapping: u32, cases: &mut Vec<Case>) {
    for nvmop in 2..8 {
        let device = with_con(running(nvmop, LOWER_PROGRAM, 0), mapping);
        cases.push(start_up(&SMALL, device));
    }
}
