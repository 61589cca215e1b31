//! What a page's line says of its side and its protection, on idle and running devices.

use crate::cases::Case;
use crate::device::*;
use crate::geometry::{Geometry, LOWER_BOOT, LOWER_PROGRAM, ROW_QUADS, UPPER_BOOT};

use super::super::parts::*;
use super::sheet;

pub fn cases() -> Vec<Case> {
    let mut cases = Vec::new();
    for mapping in MAPPINGS {
        sides(mapping, &mut cases);
    }
    for row_quads in ROW_QUADS {
        program_pages(&geometry(row_quads, 1, 2), &mut cases);
    }
    for geometry in [MANY_PAGES, LARGEST] {
        last_page(&geometry, &mut cases);
    }
    for bit in [0, 1, 2, 3, 4, 7, 8, 9, 10, 11, 12, 15] {
        boot_pages(1 << bit, &mut cases);
    }
    running_devices(&mut cases);
    idle_devices(&mut cases);
    cases
}

/// Pages of each kind protected on neither side, on one, or on both.
fn sides(mapping: u32, cases: &mut Vec<Case>) {
    for geometry in [SMALL, SEVERAL] {
        let region = geometry.region_bytes();
        for pwp in [0, region - 1, 2 * region] {
            for bits in [0, LBWP, UBWP, LBWP | UBWP] {
                let device = with_pwp(with_con(idle(), mapping), pwp);
                let device = with_register(device, NVMBWP, UNPROTECTED | bits);
                cases.push(sheet(&geometry, device, &blank(&geometry)));
            }
        }
    }
}

/// PWP one below, at and one above the offset of the first and the last page of each region.
fn program_pages(geometry: &Geometry, cases: &mut Vec<Case>) {
    let (page, region) = (geometry.page_bytes(), geometry.region_bytes());
    let mut values = vec![0, PWP];
    for offset in [0, region - page, region, 2 * region - page, 2 * region] {
        values.extend([offset.saturating_sub(1), offset, offset + 1]);
    }
    for (number, pwp) in each_once(&values).into_iter().enumerate() {
        let device = with_pwp(with_con(idle(), MAPPINGS[number % 4]), pwp);
        cases.push(sheet(geometry, device, &blank(geometry)));
    }
}

/// All program pages protected, or all but the last of the upper region.
fn last_page(geometry: &Geometry, cases: &mut Vec<Case>) {
    let offset = 2 * geometry.region_bytes() - geometry.page_bytes();
    for pwp in [offset - 1, offset] {
        let device = with_con(with_pwp(idle(), pwp), PFSWAP);
        cases.push(sheet(geometry, device, &blank(geometry)));
    }
}

/// Five boot pages on both aliases, with one bit of NVMBWP at 1 and with one at 0.
fn boot_pages(bit: u32, cases: &mut Vec<Case>) {
    let geometry = geometry(1, 5, 1);
    for mapping in [0, BFSWAP] {
        let device = with_con(idle(), mapping);
        for value in [BWP_ALWAYS | bit, RESETS[NVMBWP] & !bit] {
            let device = with_register(device, NVMBWP, value);
            cases.push(sheet(&geometry, device, &blank(&geometry)));
        }
    }
}

/// WR = 1 declines no sheet; NVMOP 2 to 4 run beside protected pages too.
fn running_devices(cases: &mut Vec<Case>) {
    for mapping in MAPPINGS {
        for nvmop in 2..8 {
            let device = with_con(running(nvmop, LOWER_PROGRAM, 0), mapping);
            cases.push(sheet(&SEVERAL, device, &blank(&SEVERAL)));
        }
        for (nvmop, address) in [(2, LOWER_BOOT), (3, UPPER_BOOT), (4, UPPER_BOOT)] {
            let device = with_con(with_pwp(running(nvmop, address, 0), PWP), mapping);
            let device = with_register(device, NVMBWP, RESETS[NVMBWP]);
            cases.push(sheet(&SEVERAL, device, &blank(&SEVERAL)));
        }
    }
    for (nvmop, last) in [(2, 0), (3, 1), (4, 15), (5, 47), (6, 47), (7, 95)] {
        for step in [last, last + 1] {
            let device = running(nvmop, LOWER_PROGRAM, step);
            cases.push(sheet(&SEVERAL, device, &blank(&SEVERAL)));
        }
    }
}

/// Errors, WREN, an open key and SWAPLOCK change no line.
fn idle_devices(cases: &mut Vec<Case>) {
    for device in [
        with_con(idle(), WRERR | LVDERR),
        with_con(idle(), WREN | 15),
        with_key(idle(), 3),
        with_register(idle(), NVMCON2, MASKS[NVMCON2]),
        with_register(idle(), NVMPWP, 1),
    ] {
        cases.push(sheet(&SMALL, device, &blank(&SMALL)));
    }
}
