//! Reads that wait for an operation that aborts, or whose steps change nothing.

use crate::cases::Case;
use crate::device::*;
use crate::geometry::{Geometry, ALL_ONES, LOWER_BOOT, LOWER_PROGRAM, UPPER_BOOT};

use super::super::operations::*;
use super::super::parts::*;

/// Four quads in a row.
const FOUR: Geometry = Geometry {
    row_quads: 4,
    boot_pages: 2,
    program_pages: 1,
};

pub fn cases() -> Vec<Case> {
    let mut cases = Vec::new();
    quads_not_blank(&mut cases);
    for number in 0..4 {
        rows_not_blank(number, &mut cases);
        short_sram(number, &mut cases);
    }
    sources(&mut cases);
    protected_pages(&mut cases);
    one_page_protected(&mut cases);
    cases
}

/// SRAM of a length, each word of which names its index.
fn words(length: usize) -> Vec<u32> {
    (0..length as u32)
        .map(|index| 0x0700_0000 + index)
        .collect()
}

/// A quad with one bit at 0 aborts; one bit beside it does not. The word read is of the quad or of another page.
fn quads_not_blank(cases: &mut Vec<Case>) {
    for (place, bit) in [(3, 0), (4, 0), (5, 31), (6, 7), (7, 16), (8, 0)] {
        let mut banks = blank(&SMALL);
        banks[1][32 + place] = !(1 << bit);
        let device = launched(2, LOWER_PROGRAM + 128 + 16, 0);
        for address in [LOWER_PROGRAM + 128 + 4 * place as u32, UPPER_BOOT + 112] {
            cases.push(flash_read(&SMALL, device, &banks, address));
        }
    }
}

/// Each quad of a row in turn not blank, seen from each step: what was programmed before stays.
fn rows_not_blank(number: u32, cases: &mut Vec<Case>) {
    for quad in 0..4 {
        let mut banks = blank(&FOUR);
        banks[0][256 + 4 * quad + 3] = 0x7FFF_FFFF;
        let device = launched(3, LOWER_PROGRAM, number);
        for address in [LOWER_PROGRAM + 16 * quad as u32, LOWER_PROGRAM + 60] {
            let read = flash_read_with(&FOUR, device, &banks, &words(18), address);
            cases.push(read);
        }
    }
}

/// SRAM that ends with each quad's words or one word short of them; the row's data begin at word 2.
fn short_sram(number: u32, cases: &mut Vec<Case>) {
    for length in [0, 5, 6, 9, 10, 13, 14, 17, 18, 19] {
        let device = launched(3, LOWER_PROGRAM + 64, number);
        let address = LOWER_PROGRAM + 64 + 16 * number;
        let read = flash_read_with(&FOUR, device, &blank(&FOUR), &words(length), address);
        cases.push(read);
    }
}

/// Sources off a multiple of 4, and sums past 32 bits at the first or at a later step.
fn sources(cases: &mut Vec<Case>) {
    for source in [
        0,
        1,
        2,
        3,
        4,
        0xFFFF_FFD0,
        0xFFFF_FFE0,
        0xFFFF_FFF0,
        ALL_ONES,
    ] {
        for number in [0, 3] {
            let device = with_register(running(3, UPPER_BOOT, number), NVMSRCADDR, source);
            let address = UPPER_BOOT + 48;
            let read = flash_read_with(&FOUR, device, &blank(&FOUR), &words(20), address);
            cases.push(read);
        }
    }
}

/// Steps in a protected boot page count and change nothing: no abort where the quads are not blank or data lack.
fn protected_pages(cases: &mut Vec<Case>) {
    for nvmop in 2..5 {
        for bits in [LBWP, UBWP] {
            for address in [LOWER_BOOT, UPPER_BOOT] {
                let device = launched(nvmop, address, 0);
                let device = with_register(device, NVMBWP, UNPROTECTED | bits);
                for fill in [0x1234_0000, ALL_ONES] {
                    let banks = filled(&SMALL, fill);
                    cases.push(flash_read(&SMALL, device, &banks, address + 112));
                }
                let banks = ground(&SMALL, nvmop);
                let read = flash_read_with(&SMALL, device, &banks, &sram(), address);
                cases.push(read);
            }
        }
    }
}

/// One of two boot pages is protected; the word is of either page.
fn one_page_protected(cases: &mut Vec<Case>) {
    let page = FOUR.page_bytes();
    for bits in [0x100, 0x200, 0x01, 0x02] {
        for address in [LOWER_BOOT, LOWER_BOOT + page, UPPER_BOOT, UPPER_BOOT + page] {
            let device = launched(4, address, 29);
            let device = with_register(device, NVMBWP, UNPROTECTED | bits);
            let banks = filled(&FOUR, 0x1234_0000);
            cases.push(flash_read(&FOUR, device, &banks, address + page - 4));
        }
    }
}
