//! Protected pages: program pages around PWP, boot pages by the bits of their alias.

use crate::cases::Case;
use crate::device::*;
use crate::geometry::{Geometry, Kind, Side, MOST_PROGRAM_PAGES, ROW_QUADS};

use super::parts::*;

pub fn cases() -> Vec<Case> {
    let mut cases = Vec::new();
    for row_quads in ROW_QUADS {
        program_pages(&geometry(row_quads, 1, 2), &mut cases);
    }
    for pages in [64, MOST_PROGRAM_PAGES] {
        program_pages(&geometry(128, 1, pages), &mut cases);
    }
    for mapping in MAPPINGS {
        first_pages(mapping, &mut cases);
    }
    for bit in [0, 1, 2, 3, 4, 7, 8, 9, 10, 11, 12, 15] {
        boot_pages(1 << bit, &mut cases);
    }
    cases
}

/// PWP one below, at and one above the offset of the first and last page of each region.
fn program_pages(geometry: &Geometry, cases: &mut Vec<Case>) {
    for (number, side) in [Side::Lower, Side::Upper].into_iter().enumerate() {
        for page in [0, geometry.program_pages - 1] {
            let before = number as u32 * geometry.program_pages;
            let offset = (before + page) * geometry.page_bytes();
            for pwp in each_once(&[0, offset.saturating_sub(1), offset, offset + 1, PWP]) {
                let device = with_pwp(idle(), pwp);
                cases.push(protected_case(
                    geometry,
                    device,
                    (Kind::Program, side),
                    page,
                ));
            }
        }
    }
}

/// The same under each mapping, with the lock open or shut.
fn first_pages(mapping: u32, cases: &mut Vec<Case>) {
    for lock in [0, PWPULOCK] {
        for side in [Side::Lower, Side::Upper] {
            for pwp in [0, 1, 127, 128] {
                let device = with_con(idle(), mapping);
                let device = with_register(device, NVMPWP, lock | pwp);
                cases.push(protected_case(&SMALL, device, (Kind::Program, side), 0));
            }
        }
    }
}

/// Five boot pages on both aliases, with one bit of NVMBWP at 1 and with one at 0.
fn boot_pages(bit: u32, cases: &mut Vec<Case>) {
    let geometry = geometry(1, 5, 1);
    for side in [Side::Lower, Side::Upper] {
        for page in 0..5 {
            let device = with_con(idle(), MAPPINGS[page as usize % 4]);
            let only = with_register(device, NVMBWP, BWP_ALWAYS | bit);
            cases.push(protected_case(&geometry, only, (Kind::Boot, side), page));
            let all_but = with_register(device, NVMBWP, RESETS[NVMBWP] & !bit);
            cases.push(protected_case(&geometry, all_but, (Kind::Boot, side), page));
        }
    }
}
