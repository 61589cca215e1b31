//! The word that a read gives: just programmed or erased, beside these, or left from before.

use crate::cases::Case;
use crate::device::*;
use crate::geometry::{Geometry, Kind, Side, ALL_ONES, LOWER_PROGRAM};
use crate::sequence::word_of;

use super::super::operations::*;
use super::super::parts::*;

/// Four quads in a row, two program pages.
const FOUR: Geometry = Geometry {
    row_quads: 4,
    boot_pages: 1,
    program_pages: 2,
};

pub fn cases() -> Vec<Case> {
    let mut cases = Vec::new();
    for window in WINDOWS {
        around_a_quad(window, &mut cases);
    }
    for number in 0..4 {
        around_a_row(number, &mut cases);
    }
    for mapping in [0, BFSWAP | PFSWAP] {
        around_a_page(mapping, &mut cases);
        around_a_region(mapping, &mut cases);
        sequence_words(mapping, &mut cases);
    }
    cases
}

/// Each word of a quad, and the words before and after it.
fn around_a_quad(window: (Kind, Side), cases: &mut Vec<Case>) {
    let first = start(&SMALL, window) + 32;
    let mut banks = blank(&SMALL);
    for bank in &mut banks {
        for index in [7, 12, 39, 44] {
            bank[index] = 500 + index as u32;
        }
    }
    let device = launched(2, first + 3, 0);
    for address in (first - 4..first + 20).step_by(4) {
        cases.push(flash_read(&SMALL, device, &banks, address));
    }
}

/// The first and last words of a row's quads, before each of its steps.
fn around_a_row(number: u32, cases: &mut Vec<Case>) {
    let first = LOWER_PROGRAM + 64;
    let sram: Vec<u32> = (900..932).collect();
    let device = launched(3, first + 63, number);
    for offset in [0, 12, 16, 28, 32, 60, 64] {
        let address = first + offset;
        cases.push(flash_read_with(
            &FOUR,
            device,
            &blank(&FOUR),
            &sram,
            address,
        ));
    }
}

/// A page's first and last words, and those beside it: at its last step the quads before keep their words.
fn around_a_page(mapping: u32, cases: &mut Vec<Case>) {
    let page = FOUR.page_bytes();
    let first = LOWER_PROGRAM + page;
    for number in [0, 16, 30, 31] {
        let device = with_con(launched(4, first + 5, number), mapping);
        for offset in [0, 252, 256, page - 4, page] {
            cases.push(flash_read(&FOUR, device, &named(&FOUR), first + offset));
        }
        let before = flash_read(&FOUR, device, &named(&FOUR), first - 4);
        cases.push(before);
    }
}

/// The ends of a region and of the boot pages of its bank, with a few steps left.
fn around_a_region(mapping: u32, cases: &mut Vec<Case>) {
    for nvmop in 5..8 {
        let length = if nvmop == 7 { 128 } else { 64 };
        for number in [length - 1, length - 3] {
            let device = with_con(launched(nvmop, 0, number), mapping);
            for window in WINDOWS {
                let address = end(&FOUR, window) - 4;
                cases.push(flash_read(&FOUR, device, &named(&FOUR), address));
            }
        }
    }
}

/// The sequence word, programmed and erased; the mapping stays until a reset.
fn sequence_words(mapping: u32, cases: &mut Vec<Case>) {
    for side in [Side::Lower, Side::Upper] {
        let address = end(&SMALL, (Kind::Boot, side)) - 16;
        let mut empty = blank(&SMALL);
        for bank in &mut empty {
            bank[SMALL.sequence_index()] = ALL_ONES;
        }
        let device = with_register(running(2, address, 0), NVMDATA0, word_of(9));
        let device = with_con(with_launched(device, device.loaded()), mapping);
        cases.push(flash_read(&SMALL, device, &empty, address));
        let erase = with_con(launched(4, address, 0), mapping);
        cases.push(flash_read(&SMALL, erase, &blank(&SMALL), address));
    }
}
