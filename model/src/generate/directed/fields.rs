//! Fields judged on the state before the store: NVMCON, NVMPWP, NVMBWP, NVMCON2, and plain registers.

use crate::cases::Case;
use crate::device::*;
use crate::geometry::{ALL_ONES, LOWER_PROGRAM};
use crate::store::{INVERT, PLAIN};

use super::parts::*;

pub fn cases() -> Vec<Case> {
    let mut cases = Vec::new();
    for form in PLAIN..=INVERT {
        wren_with_others(form, &mut cases);
        errors_and_unimplemented(form, &mut cases);
        program_protection(form, &mut cases);
        boot_protection(form, &mut cases);
        fields_of_nvmcon2(form, &mut cases);
        other_registers(form, &mut cases);
    }
    cases
}

/// WREN with NVMOP, PFSWAP, BFSWAP and WR in one value.
fn wren_with_others(form: u32, cases: &mut Vec<Case>) {
    let swaps = PFSWAP | BFSWAP;
    for value in [
        2,
        WREN | 2,
        swaps,
        WREN | swaps,
        WREN | swaps | 3,
        WR | 2,
        WR | WREN | 2,
        WR | WREN | swaps | 0xF,
    ] {
        for before in [4, WREN | 4, BFSWAP | 4, WREN | PFSWAP | 4] {
            for key_step in [0, 3] {
                let device = with_register(idle(), NVMADDR, LOWER_PROGRAM);
                let device = with_key(with_con(device, before), key_step);
                cases.push(store(&SMALL, device, NVMCON, form, value));
            }
        }
    }
}

/// "WRERR and LVDERR: never"; bits outside the mask stay 0.
fn errors_and_unimplemented(form: u32, cases: &mut Vec<Case>) {
    for value in [WRERR, LVDERR, WRERR | LVDERR, !MASKS[NVMCON], ALL_ONES, 0] {
        for before in [0, WRERR, LVDERR, WREN | WRERR | LVDERR] {
            let device = with_key(with_con(idle(), before), 3);
            cases.push(store(&SMALL, device, NVMCON, form, value));
        }
    }
}

/// PWPULOCK with PWP in one store; locks that fall and that try to rise.
fn program_protection(form: u32, cases: &mut Vec<Case>) {
    for before in [PWPULOCK, 0, PWPULOCK | 0x12_3456, 0x12_3456] {
        for value in [PWPULOCK, 0, PWPULOCK | 0x0F_F0FF, 0x0F_F0FF, ALL_ONES] {
            for key_step in [2, 3] {
                let device = with_key(with_register(idle(), NVMPWP, before), key_step);
                cases.push(store(&SMALL, device, NVMPWP, form, value));
            }
        }
    }
}

/// Both locks of NVMBWP with their fields, and the bit that is always 1.
fn boot_protection(form: u32, cases: &mut Vec<Case>) {
    for locks in [0, LBWPULOCK, UBWPULOCK, LBWPULOCK | UBWPULOCK] {
        let device = with_register(idle(), NVMBWP, locks | BWP_ALWAYS | 0x0A15);
        for value in [
            0,
            0x1F1F,
            LBWPULOCK | 0x1503,
            UBWPULOCK | 0x0318,
            LBWPULOCK | UBWPULOCK,
            BWP_ALWAYS,
            ALL_ONES,
        ] {
            cases.push(store(&SMALL, with_key(device, 3), NVMBWP, form, value));
        }
        cases.push(store(&SMALL, with_key(device, 2), NVMBWP, form, 0x9F9F));
    }
}

/// Each field of NVMCON2 alone, with the key open and shut.
fn fields_of_nvmcon2(form: u32, cases: &mut Vec<Case>) {
    let fields = [
        NVMERS,
        NVMWS,
        NVMLPRD,
        NVMCRD,
        NVMVRD,
        NVMRETRY,
        SWAPLOCK,
        ALL_ONES,
        0x5555_5555,
    ];
    for value in fields {
        for before in [0x500A_9180, 0x0015_2240] {
            for key_step in [0, 3] {
                let device = with_key(with_register(idle(), NVMCON2, before), key_step);
                cases.push(store(&SMALL, device, NVMCON2, form, value));
            }
        }
    }
}

/// NVMADDR, NVMDATA0 to 3 and NVMSRCADDR take every bit, without key, whatever WREN.
fn other_registers(form: u32, cases: &mut Vec<Case>) {
    for register in NVMADDR..=NVMSRCADDR {
        for wren in [0, WREN] {
            let mut device = with_con(idle(), wren);
            device.registers[register] = 0x0FF0_A55A;
            cases.push(store(&SMALL, device, register, form, 0xFF00_AA55));
        }
    }
}
