//! Reads of each window while each NVMOP works on each, at its first, a middle and its last step.

use crate::cases::Case;
use crate::device::*;
use crate::geometry::{Geometry, Kind, Side};

use super::super::operations::*;
use super::super::parts::*;

/// Two quads in a row.
const TWO: Geometry = Geometry {
    row_quads: 2,
    boot_pages: 1,
    program_pages: 1,
};

pub fn cases() -> Vec<Case> {
    let mut cases = Vec::new();
    for nvmop in 2..8 {
        for mapping in [0, BFSWAP | PFSWAP] {
            every_window(nvmop, mapping, &mut cases);
        }
        for mapping in [BFSWAP, PFSWAP] {
            mixed_mapping(nvmop, mapping, &mut cases);
        }
    }
    both_regions(&mut cases);
    cases
}

/// The windows that NVMOP can work on by its address; one where it has none.
fn targets(nvmop: u32) -> Vec<(Kind, Side)> {
    let count = if nvmop < 5 { WINDOWS.len() } else { 1 };
    WINDOWS[..count].to_vec()
}

/// Reads of the last word of each window.
fn reads(geometry: &Geometry, device: Device, cases: &mut Vec<Case>) {
    let banks = ground(geometry, device.nvmop());
    for window in WINDOWS {
        let address = end(geometry, window) - 4;
        cases.push(flash_read_with(geometry, device, &banks, &sram(), address));
    }
}

/// The target's address is not on a multiple of 16, and other values were loaded since.
fn every_window(nvmop: u32, mapping: u32, cases: &mut Vec<Case>) {
    let length = [1, 2, 16, 16, 16, 32][nvmop as usize - 2];
    for target in targets(nvmop) {
        for number in each_once(&[0, length / 2, length - 1]) {
            let device = launched(nvmop, start(&TWO, target) + 13, number);
            let device = then_loaded(device, later(start(&TWO, WINDOWS[0])));
            reads(&TWO, with_con(device, mapping), cases);
        }
    }
}

/// Boot pages of one bank and program pages of the other are lower.
fn mixed_mapping(nvmop: u32, mapping: u32, cases: &mut Vec<Case>) {
    for target in targets(nvmop) {
        let device = launched(nvmop, end(&SMALL, target) - 1, 0);
        reads(&SMALL, with_con(device, mapping), cases);
    }
}

/// NVMOP 7 around the step where the upper region begins: every read waits.
fn both_regions(cases: &mut Vec<Case>) {
    for number in [1, 7, 8, 9, 14] {
        for mapping in [0, PFSWAP] {
            reads(&SMALL, with_con(launched(7, 0, number), mapping), cases);
        }
    }
}
