//! Launches: NVMOP 0 to 15, errors set before, targets of NVMOP 2 to 4, regions under PWP.

use crate::cases::Case;
use crate::device::*;
use crate::geometry::{Geometry, Kind, Side, LOWER_PROGRAM};
use crate::store::{CLEAR, INVERT, PLAIN, SET};

use super::parts::*;

pub fn cases() -> Vec<Case> {
    let mut cases = Vec::new();
    for geometry in [geometry(1, 1, 2), SEVERAL] {
        regions(&geometry, &mut cases);
        program_targets(&geometry, &mut cases);
        boot_targets(&geometry, &mut cases);
        window_edges(&geometry, &mut cases);
    }
    every_nvmop(&mut cases);
    launching_stores(&mut cases);
    cases
}

/// Values of PWP around the pages of both regions.
fn pwp_edges(geometry: &Geometry) -> Vec<u32> {
    let (page, region) = (geometry.page_bytes(), geometry.region_bytes());
    each_once(&[
        0,
        1,
        page - 1,
        page,
        region - page,
        region - 1,
        region,
        region + 1,
        2 * region - page,
        2 * region - 1,
        2 * region,
        PWP,
    ])
}

/// NVMOP 5 to 7: failure by protected pages, not by mapping or NVMADDR.
fn regions(geometry: &Geometry, cases: &mut Vec<Case>) {
    for nvmop in 5..8 {
        for pwp in pwp_edges(geometry) {
            for (mapping, address) in [(0, LOWER_PROGRAM), (PFSWAP, 0)] {
                let device = with_con(ready(nvmop, address), mapping);
                cases.push(launch(geometry, with_pwp(device, pwp)));
            }
        }
    }
}

/// NVMOP 2 to 4 in each program page under each PWP.
fn program_targets(geometry: &Geometry, cases: &mut Vec<Case>) {
    let page = geometry.page_bytes();
    for nvmop in 2..5 {
        for number in 0..2 * geometry.program_pages {
            let offset = number * page;
            for pwp in each_once(&[0, offset.saturating_sub(1), offset, offset + 1]) {
                let address = LOWER_PROGRAM + offset + page - 1;
                let device = with_pwp(ready(nvmop, address), pwp);
                cases.push(launch(geometry, device));
            }
        }
    }
}

/// NVMOP 2 to 4 in boot pages: no failure, protected or not, and PWP does not matter.
fn boot_targets(geometry: &Geometry, cases: &mut Vec<Case>) {
    for nvmop in 2..5 {
        for side in [Side::Lower, Side::Upper] {
            for number in 0..geometry.boot_pages {
                let boot = start(geometry, (Kind::Boot, side));
                let address = boot + number * geometry.page_bytes();
                for (nvmbwp, pwp) in [(RESETS[NVMBWP], 0), (UNPROTECTED, PWP)] {
                    let device = with_pwp(ready(nvmop, address), pwp);
                    let device = with_register(device, NVMBWP, nvmbwp);
                    cases.push(launch(geometry, device));
                }
            }
        }
    }
}

/// Addresses around each window; rounded down they are inside or outside.
fn window_edges(geometry: &Geometry, cases: &mut Vec<Case>) {
    for nvmop in 2..5 {
        for window in WINDOWS {
            let (first, past) = (start(geometry, window), end(geometry, window));
            for address in [first - 1, first, past - 1, past, past + 15] {
                cases.push(launch(geometry, ready(nvmop, address)));
            }
        }
        for address in [0, 0x9D00_0000, 0xFFFF_FFFF] {
            cases.push(launch(geometry, ready(nvmop, address)));
        }
    }
}

/// Each NVMOP, with no error, either error and both; at a good target and at none.
fn every_nvmop(cases: &mut Vec<Case>) {
    for nvmop in 0..16 {
        for errors in [0, WRERR, LVDERR, WRERR | LVDERR] {
            for address in [LOWER_PROGRAM, 0] {
                let device = with_con(ready(nvmop, address), errors);
                cases.push(launch(&SMALL, device));
            }
        }
    }
}

/// What launches: WR wanted 1, WREN = 1, key open; and the WREN that the store leaves.
fn launching_stores(cases: &mut Vec<Case>) {
    let stores = [
        (PLAIN, WR),
        (PLAIN, WR | WREN),
        (PLAIN, WREN),
        (PLAIN, WR | 0xC7),
        (CLEAR, WR),
        (CLEAR, WREN),
        (SET, WR),
        (SET, WR | WREN),
        (SET, WREN),
        (INVERT, WR),
        (INVERT, WR | WREN),
        (INVERT, WREN),
    ];
    for (form, value) in stores {
        for nvmop in [0, 2, 7] {
            let device = ready(nvmop, LOWER_PROGRAM);
            let device = if nvmop == 0 {
                with_con(device, WRERR)
            } else {
                device
            };
            for key_step in [0, 2, 3] {
                let device = with_key(device, key_step);
                cases.push(store(&SMALL, device, NVMCON, form, value));
                let disabled = with_register(device, NVMCON, device.registers[NVMCON] & !WREN);
                cases.push(store(&SMALL, disabled, NVMCON, form, value));
            }
        }
    }
}
