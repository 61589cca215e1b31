//! Flash reads at the edges of the four windows, while idle and while an operation runs; the lower bank.

use crate::cases::Case;
use crate::device::{NVMBWP, RESETS};
use crate::geometry::{Geometry, ALL_ONES};

use super::parts::*;

pub fn cases() -> Vec<Case> {
    let mut cases = Vec::new();
    for mapping in MAPPINGS {
        window_edges(&SMALL, mapping, &mut cases);
        page_edges(&SEVERAL, mapping, &mut cases);
        while_running(mapping, &mut cases);
        lower_banks(mapping, &mut cases);
    }
    largest_banks(&mut cases);
    far_addresses(&mut cases);
    cases
}

/// Around the first and the last word of each window, on a multiple of 4 and off it.
fn window_edges(geometry: &Geometry, mapping: u32, cases: &mut Vec<Case>) {
    let device = with_con(idle(), mapping);
    for window in WINDOWS {
        let (first, past) = (start(geometry, window), end(geometry, window));
        for address in (first - 4..first + 8).chain(past - 4..past + 5) {
            let inside = (first..first + 4).contains(&address);
            if address % 4 == 0 || inside || mapping == 0 {
                cases.push(flash_read(geometry, device, &named(geometry), address));
            }
        }
    }
}

/// The first and the last word of each page.
fn page_edges(geometry: &Geometry, mapping: u32, cases: &mut Vec<Case>) {
    let device = with_con(idle(), mapping);
    for window in WINDOWS {
        let pages = start(geometry, window)..end(geometry, window);
        for address in pages.step_by(geometry.page_bytes() as usize) {
            let banks = named(geometry);
            cases.push(flash_read(geometry, device, &banks, address));
            let last = address + geometry.page_bytes() - 4;
            cases.push(flash_read(geometry, device, &banks, last));
        }
    }
}

/// Reads of each window while an operation works on each, boot pages protected or not.
fn while_running(mapping: u32, cases: &mut Vec<Case>) {
    for nvmop in 2..8 {
        for (number, target) in WINDOWS.into_iter().enumerate() {
            if nvmop > 4 && number > 0 {
                continue;
            }
            let mut device = with_con(running(nvmop, start(&SMALL, target), 0), mapping);
            if nvmop == 3 {
                device = with_register(device, NVMBWP, RESETS[NVMBWP]);
            }
            for window in WINDOWS {
                let address = end(&SMALL, window) - 4;
                cases.push(flash_read(&SMALL, device, &named(&SMALL), address));
            }
        }
    }
}

/// Banks that differ in their last word, and banks that are equal.
fn lower_banks(mapping: u32, cases: &mut Vec<Case>) {
    let mut banks = blank(&SMALL);
    cases.push(lower_bank(&SMALL, with_con(idle(), mapping), &banks));
    banks[1] = banks[0].clone();
    cases.push(lower_bank(&SMALL, with_con(idle(), mapping), &banks));
    banks[1][63] = 7;
    cases.push(lower_bank(&SMALL, with_con(idle(), mapping), &banks));
    let device = with_con(running(7, 0, 0), mapping);
    cases.push(lower_bank(&SMALL, device, &banks));
}

/// The ends of the windows where they are widest.
fn largest_banks(cases: &mut Vec<Case>) {
    let mut banks = [1, 2].map(|bank| vec![bank; LARGEST.bank_words() as usize]);
    for (number, bank) in banks.iter_mut().enumerate() {
        let boot = (LARGEST.boot_pages * LARGEST.page_words()) as usize;
        for index in [0, boot - 1, boot, LARGEST.bank_words() as usize - 1] {
            bank[index] = (number << 24 | index) as u32;
        }
    }
    for window in WINDOWS {
        for address in [start(&LARGEST, window), end(&LARGEST, window) - 4] {
            cases.push(flash_read(&LARGEST, idle(), &banks, address));
        }
        cases.push(flash_read(&LARGEST, idle(), &banks, end(&LARGEST, window)));
    }
}

/// Far from every window, and where a wrapped or virtual address would be inside.
fn far_addresses(cases: &mut Vec<Case>) {
    for address in [
        0,
        128,
        0x1CFF_FF80,
        0x1FC0_FFFC,
        0x1FC1_0000,
        0x1FC4_0000,
        0x5FC0_0000,
        0x9D00_0000,
        0xBD00_0000,
        0xBFC0_0000,
        0xBFC2_0000,
        ALL_ONES - 3,
        ALL_ONES,
    ] {
        cases.push(flash_read(&SMALL, idle(), &named(&SMALL), address));
    }
}
