//! Steps, resets and flash reads while the six registers hold something else than what was launched.

use crate::cases::Case;
use crate::device::*;
use crate::geometry::{Geometry, Kind, Side, ALL_ONES, LOWER_BOOT, LOWER_PROGRAM, UPPER_BOOT};
use crate::sequence::word_of;

use super::super::operations::*;
use super::super::parts::*;

const WHOLE: [u32; 4] = [ALL_ONES; 4];

/// No two words alike.
const MIXED: [u32; 4] = [0x00FF_00FF, 0xFFFF_0000, 0x0F0F_0F0F, 0x8000_0001];

/// Two quads in a row.
const TWO: Geometry = Geometry {
    row_quads: 2,
    boot_pages: 1,
    program_pages: 1,
};

pub fn cases() -> Vec<Case> {
    let mut cases = Vec::new();
    for nvmop in 2..8 {
        one_register_later(nvmop, &mut cases);
        ends(nvmop, &mut cases);
    }
    other_targets(&mut cases);
    blank_or_not(&mut cases);
    sources(&mut cases);
    protected_pages(&mut cases);
    sequence_quads(&mut cases);
    for mapping in MAPPINGS {
        reads(mapping, &mut cases);
    }
    cases
}

/// The same inputs as a step and as a reset of each kind in turn.
fn both(geometry: &Geometry, device: Device, banks: &Pair, cases: &mut Vec<Case>) {
    let kind = cases.len() as u32 / 2 % 3;
    cases.push(step(geometry, device, banks, &sram()));
    cases.push(reset(geometry, device, banks, &sram(), kind, MIXED));
}

/// The same inputs as a step and as a reset of each kind.
fn all_ways(geometry: &Geometry, device: Device, banks: &Pair, cases: &mut Vec<Case>) {
    cases.push(step(geometry, device, banks, &sram()));
    for kind in 0..3 {
        cases.push(reset(geometry, device, banks, &sram(), kind, WHOLE));
    }
}

/// Each of the six registers alone, and all of them.
fn one_register_later(nvmop: u32, cases: &mut Vec<Case>) {
    let device = launched(nvmop, LOWER_PROGRAM + 3, 0);
    let other = then_loaded(device, later(UPPER_BOOT)).registers;
    let banks = ground(&TWO, nvmop);
    for (register, value) in other.into_iter().enumerate() {
        if device.registers[register] != value {
            both(&TWO, with_register(device, register, value), &banks, cases);
        }
    }
    all_ways(&TWO, then_loaded(device, later(UPPER_BOOT)), &banks, cases);
    both(&TWO, then_loaded(device, Operands::NONE), &banks, cases);
}

/// The step before the last keeps what was launched, the last one makes it 0; so does a reset.
fn ends(nvmop: u32, cases: &mut Vec<Case>) {
    let length = [1, 2, 16, 16, 16, 32][nvmop as usize - 2];
    for number in each_once(&[0, length / 2, length - 1]) {
        let device = launched(nvmop, UPPER_BOOT + 15, number);
        let device = then_loaded(device, later(LOWER_PROGRAM));
        all_ways(&TWO, device, &ground(&TWO, nvmop), cases);
    }
}

/// The launched target in each window, NVMADDR in each other, outside, or in the same quad.
fn other_targets(cases: &mut Vec<Case>) {
    for window in WINDOWS {
        let address = start(&SMALL, window);
        for other in WINDOWS.map(|other| start(&SMALL, other) + 64) {
            let device = launched(2, address, 0);
            let device = with_con(then_loaded(device, later(other)), BFSWAP);
            cases.push(step(&SMALL, device, &blank(&SMALL), &[]));
        }
        for other in [0, end(&SMALL, window), address - 1, address + 15, ALL_ONES] {
            let device = then_loaded(launched(4, address, 7), later(other));
            both(&SMALL, device, &ground(&SMALL, 4), cases);
        }
    }
}

/// "Programming needs four words of all ones": those of the launched quad.
fn blank_or_not(cases: &mut Vec<Case>) {
    for nvmop in [2, 3] {
        for (first, second) in [(ALL_ONES, 0), (0, ALL_ONES), (0, 0), (!1, ALL_ONES)] {
            let mut banks = blank(&SMALL);
            banks[0][32..36].fill(first);
            banks[0][36..40].fill(second);
            let device = launched(nvmop, LOWER_PROGRAM, 0);
            let device = then_loaded(device, later(LOWER_PROGRAM + 16));
            both(&SMALL, device, &banks, cases);
        }
    }
}

/// A row's data at the launched source: off a multiple of 4, at the end of the SRAM, or a sum past 32 bits.
fn sources(cases: &mut Vec<Case>) {
    let usual = launched(3, LOWER_PROGRAM, 1);
    for source in [0, 1, 32, 33, 36, 64, 0xFFFF_FFF0, ALL_ONES] {
        let registers = with_register(usual, NVMSRCADDR, source);
        both(&TWO, registers, &blank(&TWO), cases);
        let operands = Operands {
            source,
            ..usual.launched
        };
        let other = with_launched(usual, operands);
        both(&TWO, other, &blank(&TWO), cases);
    }
}

/// Boot pages: protection of the launched one counts, that of NVMADDR's does not.
fn protected_pages(cases: &mut Vec<Case>) {
    for nvmop in [2, 4] {
        for bits in [LBWP, UBWP] {
            for (address, other) in [(LOWER_BOOT, UPPER_BOOT), (UPPER_BOOT, LOWER_BOOT)] {
                let device = then_loaded(launched(nvmop, address, 0), later(other));
                let device = with_register(device, NVMBWP, UNPROTECTED | bits);
                both(&SMALL, device, &ground(&SMALL, nvmop), cases);
            }
        }
    }
}

/// The sequence quad torn by the launched words; the registers hold words that would win.
fn sequence_quads(cases: &mut Vec<Case>) {
    let address = end(&SMALL, (Kind::Boot, Side::Upper)) - 16;
    for (word, other) in [(9, 1), (1, 9), (2, 2)] {
        for kind in 0..3 {
            let device = running(2, address, 0);
            let device = with_register(device, NVMDATA0, word_of(word));
            let device = with_launched(device, device.loaded());
            let device = with_register(device, NVMDATA0, word_of(other));
            let mut banks = blank(&SMALL);
            banks[1][SMALL.sequence_index()] = ALL_ONES;
            cases.push(reset(&SMALL, device, &banks, &[], kind, WHOLE));
        }
    }
}

/// A read of the launched bank waits, not one of the bank that NVMADDR names; NVMOP 5 to 7 have no address.
fn reads(mapping: u32, cases: &mut Vec<Case>) {
    for nvmop in 2..8 {
        for (target, other) in [
            (LOWER_PROGRAM, UPPER_BOOT),
            (LOWER_PROGRAM + 128, LOWER_PROGRAM),
            (UPPER_BOOT, 0),
        ] {
            if nvmop > 4 && target != UPPER_BOOT {
                continue;
            }
            let device = then_loaded(launched(nvmop, target, 0), later(other));
            let device = with_con(device, mapping);
            for window in WINDOWS {
                let (banks, address) = (ground(&SMALL, nvmop), end(&SMALL, window) - 4);
                cases.push(flash_read(&SMALL, device, &banks, address));
            }
        }
    }
}
