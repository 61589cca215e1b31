//! Steps: the first, those at an edge and the last of each NVMOP, what aborts, and protected boot pages.

use crate::cases::Case;
use crate::device::*;
use crate::geometry::{Geometry, Kind, Side, ALL_ONES, LOWER_PROGRAM};

use super::parts::*;

pub fn cases() -> Vec<Case> {
    let mut cases = Vec::new();
    for geometry in [SMALL, geometry(2, 1, 2), geometry(4, 2, 1)] {
        regions(&geometry, &mut cases);
        page_erases(&geometry, &mut cases);
    }
    largest_regions(&mut cases);
    quads(&mut cases);
    quads_not_blank(&mut cases);
    rounded_quads(&mut cases);
    protected_boot_pages(&mut cases);
    only_one_page_protected(&mut cases);
    cases
}

/// The steps of a region at its ends and where a page ends.
fn region_steps(geometry: &Geometry) -> Vec<u32> {
    let (page, region) = (
        geometry.page_quads(),
        geometry.page_quads() * geometry.program_pages,
    );
    each_once(&[0, 1, page - 1, page % region, region - 1])
}

/// Erasing a region or both: lower before upper, by the mapping.
fn regions(geometry: &Geometry, cases: &mut Vec<Case>) {
    let region = geometry.page_quads() * geometry.program_pages;
    for nvmop in 5..8 {
        let mut steps = region_steps(geometry);
        if nvmop == 7 {
            let upper: Vec<u32> = steps.iter().map(|step| region + step).collect();
            steps.extend(upper);
        }
        for step_number in steps {
            for mapping in [0, BFSWAP, PFSWAP] {
                let device = with_con(running(nvmop, 0, step_number), mapping);
                cases.push(step(geometry, device, &filled(geometry, 0), &[]));
            }
        }
    }
}

/// The last step of the longest operations.
fn largest_regions(cases: &mut Vec<Case>) {
    let region = LARGEST.page_quads() * LARGEST.program_pages;
    for (nvmop, length) in [
        (4, LARGEST.page_quads()),
        (5, region),
        (6, region),
        (7, 2 * region),
    ] {
        let last = with_con(running(nvmop, LOWER_PROGRAM, length - 1), PFSWAP);
        cases.push(step(&LARGEST, last, &filled(&LARGEST, 0), &[]));
    }
}

/// A page in each window: NVMADDR is any address in it.
fn page_erases(geometry: &Geometry, cases: &mut Vec<Case>) {
    let length = geometry.page_quads();
    for window in WINDOWS {
        let past = end(geometry, window);
        for (mapping, step_number, address) in [
            (0, 0, past - 1),
            (PFSWAP, 1, past - 16),
            (BFSWAP, length - 2, past - geometry.row_bytes()),
            (0, length - 1, past - geometry.page_bytes()),
        ] {
            let device = with_con(running(4, address, step_number), mapping);
            cases.push(step(geometry, device, &filled(geometry, 0), &[]));
        }
    }
}

/// A quad in each window under each mapping; data of all ones changes nothing.
fn quads(cases: &mut Vec<Case>) {
    for mapping in MAPPINGS {
        for window in WINDOWS {
            let address = start(&SEVERAL, window) + SEVERAL.page_bytes();
            let device = with_con(running(2, address, 0), mapping);
            cases.push(step(&SEVERAL, device, &blank(&SEVERAL), &[]));
            let mut erased = device;
            erased.registers[NVMDATA0..NVMDATA0 + 4].fill(ALL_ONES);
            cases.push(step(&SEVERAL, erased, &blank(&SEVERAL), &[]));
        }
    }
}

/// "Programming needs four words of all ones": one bit of each word, and the words beside the quad.
fn quads_not_blank(cases: &mut Vec<Case>) {
    let first = 32 + 8;
    for place in 0..6 {
        for bit in [0, 15, 31] {
            let mut banks = blank(&SMALL);
            banks[1][first - 1 + place] = !(1 << bit);
            let device = running(2, LOWER_PROGRAM + 128 + 32, 0);
            cases.push(step(&SMALL, device, &banks, &[]));
        }
    }
    let mut banks = filled(&SMALL, 0);
    banks[1][first..first + 4].fill(ALL_ONES);
    let device = running(2, LOWER_PROGRAM + 128 + 32, 0);
    cases.push(step(&SMALL, device, &banks, &[]));
}

/// "rounded down to 16" for a quad, whatever Q.
fn rounded_quads(cases: &mut Vec<Case>) {
    for row_quads in [1, 8] {
        let geometry = geometry(row_quads, 1, 1);
        for offset in [0, 1, 15, 16, 31, 32] {
            let device = running(2, LOWER_PROGRAM + offset, 0);
            cases.push(step(&geometry, device, &blank(&geometry), &[]));
        }
    }
}

/// Steps that count and change nothing; the last has its event.
fn protected_boot_pages(cases: &mut Vec<Case>) {
    for side in [Side::Lower, Side::Upper] {
        let address = start(&SEVERAL, (Kind::Boot, side));
        let (row, page) = (SEVERAL.row_quads, SEVERAL.page_quads());
        for (nvmop, step_number) in [(2, 0), (3, 0), (3, row - 1), (4, 0), (4, page - 1)] {
            for nvmbwp in [RESETS[NVMBWP], UNPROTECTED] {
                let device = running(nvmop, address, step_number);
                let device = with_register(device, NVMBWP, nvmbwp);
                cases.push(step(&SEVERAL, device, &filled(&SEVERAL, 0), &[]));
                cases.push(step(&SEVERAL, device, &blank(&SEVERAL), &[]));
            }
        }
    }
}

/// LBWPi and UBWPi: of two pages on two aliases, one protected; it follows the mapping.
fn only_one_page_protected(cases: &mut Vec<Case>) {
    for bit in [8, 9, 0, 1] {
        for side in [Side::Lower, Side::Upper] {
            for number in 0..2 {
                for mapping in [0, BFSWAP] {
                    let boot = start(&SEVERAL, (Kind::Boot, side));
                    let device = running(4, boot + number * SEVERAL.page_bytes(), 0);
                    let device = with_register(device, NVMBWP, UNPROTECTED | 1 << bit);
                    let device = with_con(device, mapping);
                    cases.push(step(&SEVERAL, device, &filled(&SEVERAL, 0), &[]));
                }
            }
        }
    }
}
