//! Resets: what idle and running ones keep, clear and set, what they tear, and what they don't.

use crate::cases::Case;
use crate::device::*;
use crate::geometry::{Geometry, Kind, Side, ALL_ONES, LOWER_PROGRAM};
use crate::sequence::word_of;

use super::parts::*;

const NONE: [u32; 4] = [0; 4];
const WHOLE: [u32; 4] = [ALL_ONES; 4];

/// No two words alike.
const MIXED: [u32; 4] = [0x00FF_00FF, 0xFFFF_0000, 0x0F0F_0F0F, 0x8000_0001];

pub fn cases() -> Vec<Case> {
    let mut cases = Vec::new();
    for kind in 0..3 {
        single_bits(kind, &mut cases);
        idle_operations(kind, &mut cases);
        compared(kind, &mut cases);
        torn_operations(kind, &mut cases);
        nothing_torn(kind, &mut cases);
        protected_boot_pages(kind, &mut cases);
    }
    for kind in [0, 1, 2, 3, 4, 256, ALL_ONES] {
        idle_resets(kind, &mut cases);
    }
    steps_of_regions(&mut cases);
    cases
}

/// WR = 0 with registers of all kinds of values; a mask tears nothing.
fn idle_resets(kind: u32, cases: &mut Vec<Case>) {
    let mut all = with_key(idle(), 3);
    all.registers = MASKS;
    all.clear_con(WR);
    let mut none = with_key(Device::reset_values(), 1);
    none.registers = [0; REGISTERS];
    none.registers[NVMBWP] = BWP_ALWAYS;
    for device in [all, none, Device::reset_values()] {
        for pair in [[word_of(1), word_of(2)], [word_of(3), word_of(2)], [0, 0]] {
            let mut banks = filled(&SMALL, 0);
            banks[0][SMALL.sequence_index()] = pair[0];
            banks[1][SMALL.sequence_index()] = pair[1];
            let mask = if pair[0] == 0 { NONE } else { WHOLE };
            cases.push(reset(&SMALL, device, &banks, &[], kind, mask));
        }
    }
}

/// One bit of NVMCON, NVMPWP, NVMBWP or NVMCON2 that differs from the reset value.
fn single_bits(kind: u32, cases: &mut Vec<Case>) {
    for register in [NVMCON, NVMPWP, NVMBWP, NVMCON2] {
        for bit in (0..32).map(|bit| 1 << bit) {
            let always = register == NVMBWP && bit == BWP_ALWAYS;
            let running = register == NVMCON && bit == WR;
            if MASKS[register] & bit == 0 || always || running {
                continue;
            }
            let value = RESETS[register] ^ bit;
            let device = with_register(idle(), register, value);
            cases.push(reset(&SMALL, device, &blank(&SMALL), &[], kind, WHOLE));
        }
    }
    for register in NVMADDR..=NVMSRCADDR {
        let device = with_register(idle(), register, 0x0FF0_A55A);
        cases.push(reset(&SMALL, device, &blank(&SMALL), &[], kind, WHOLE));
    }
}

/// WR = 0 beside an NVMOP and a target that would be torn.
fn idle_operations(kind: u32, cases: &mut Vec<Case>) {
    for nvmop in 2..8 {
        let fill = if nvmop < 4 { ALL_ONES } else { 0 };
        let banks = filled(&SMALL, fill);
        let device = ready(nvmop, LOWER_PROGRAM);
        cases.push(reset(&SMALL, device, &banks, &sram(), kind, WHOLE));
    }
}

/// Sequence words, bank 1's first: higher, equal, one valid, none, and T at the ends of its range.
fn compared(kind: u32, cases: &mut Vec<Case>) {
    for pair in [
        [word_of(6), word_of(5)],
        [word_of(5), word_of(6)],
        [word_of(5), word_of(5)],
        [word_of(0x7FFF), word_of(0x8000)],
        [word_of(0), word_of(0xFFFF)],
        [word_of(0xFFFF), word_of(0)],
        [word_of(0x01FF), word_of(0x0200)],
        [word_of(0), ALL_ONES],
        [ALL_ONES, word_of(0)],
        [0, word_of(1)],
        [word_of(1), word_of(9) ^ 0x0001_0000],
        [word_of(9) ^ 0x8000, word_of(1)],
        [ALL_ONES, 0],
    ] {
        let mut banks = blank(&SMALL);
        for (bank, word) in banks.iter_mut().zip(pair) {
            bank[SMALL.sequence_index()] = word;
        }
        for before in [0, BFSWAP] {
            let device = with_con(idle(), before);
            cases.push(reset(&SMALL, device, &banks, &[], kind, NONE));
        }
    }
}

/// SRAM for a row from address 0 on.
fn sram() -> Vec<u32> {
    (0..8).map(|index| 0x1248_0000 | index).collect()
}

/// Each operation torn by each mask; errors, WREN and mapping differ with the mask.
fn torn_operations(kind: u32, cases: &mut Vec<Case>) {
    let geometry = geometry(2, 1, 1);
    let mut masks = vec![NONE, WHOLE, MIXED];
    for word in 0..4 {
        let mut mask = NONE;
        mask[word] = ALL_ONES;
        masks.push(mask);
    }
    for nvmop in 2..8 {
        for (number, mask) in masks.iter().enumerate() {
            let fill = if nvmop < 4 { ALL_ONES } else { 0x1234_0000 };
            let device = running(nvmop, LOWER_PROGRAM + 3, u32::from(nvmop > 2));
            let device = with_con(device, MAPPINGS[number % 4]);
            let banks = filled(&geometry, fill);
            cases.push(reset(&geometry, device, &banks, &sram(), kind, *mask));
        }
    }
}

/// Steps that would abort: a quad or row that is not blank, a row without data.
fn nothing_torn(kind: u32, cases: &mut Vec<Case>) {
    for (nvmop, fill, length) in [
        (2, 0xFFFF_FFFE, 8),
        (3, 0x7FFF_FFFF, 8),
        (3, ALL_ONES, 3),
        (3, ALL_ONES, 0),
    ] {
        let device = running(nvmop, LOWER_PROGRAM, 0);
        for mask in [WHOLE, MIXED] {
            let banks = filled(&SMALL, fill);
            let sram = &sram()[..length];
            cases.push(reset(&SMALL, device, &banks, sram, kind, mask));
        }
    }
}

/// Protected boot pages tear nothing; the same pages unprotected do.
fn protected_boot_pages(kind: u32, cases: &mut Vec<Case>) {
    for side in [Side::Lower, Side::Upper] {
        let address = start(&SMALL, (Kind::Boot, side));
        for nvmop in 2..5 {
            let fill = if nvmop < 4 { ALL_ONES } else { 0 };
            for nvmbwp in [RESETS[NVMBWP], UNPROTECTED, UNPROTECTED | 0x0101] {
                let device = running(nvmop, address, 0);
                let device = with_register(device, NVMBWP, nvmbwp);
                let banks = filled(&SMALL, fill);
                cases.push(reset(&SMALL, device, &banks, &sram(), kind, WHOLE));
            }
        }
    }
}

/// The quad of the next step at the edges of pages and regions.
fn steps_of_regions(cases: &mut Vec<Case>) {
    let geometry: Geometry = geometry(1, 1, 2);
    for (nvmop, steps) in [
        (4, [0, 1, 7]),
        (5, [7, 8, 15]),
        (6, [7, 8, 15]),
        (7, [15, 16, 31]),
    ] {
        for (kind, step_number) in steps.into_iter().enumerate() {
            let device = running(nvmop, LOWER_PROGRAM + 128, step_number);
            let banks = filled(&geometry, 0);
            cases.push(reset(&geometry, device, &banks, &[], kind as u32, MIXED));
        }
    }
}
