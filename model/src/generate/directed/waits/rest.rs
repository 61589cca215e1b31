//! Reads that need not wait, and how much SRAM may be lent with a read.

use crate::cases::Case;
use crate::device::*;
use crate::geometry::{ALL_ONES, LOWER_BOOT, LOWER_PROGRAM, SRAM_LIMIT, UPPER_BOOT};

use super::super::operations::*;
use super::super::parts::*;

pub fn cases() -> Vec<Case> {
    let mut cases = Vec::new();
    at_rest(&mut cases);
    declined_addresses(&mut cases);
    sram_lengths(&mut cases);
    rows_at_the_end_of_sram(&mut cases);
    largest_banks(&mut cases);
    cases
}

/// WR = 0: the key, WREN and errors stay, whatever NVMOP and the target are.
fn at_rest(cases: &mut Vec<Case>) {
    let banks = named(&SMALL);
    for nvmop in 0..16 {
        let device = ready(nvmop, LOWER_PROGRAM);
        let read = flash_read_with(&SMALL, device, &banks, &sram(), LOWER_PROGRAM);
        cases.push(read);
    }
    for key_step in 0..4 {
        for bits in [WREN, WRERR, LVDERR, BFSWAP, PFSWAP] {
            let device = with_con(with_key(idle(), key_step), bits);
            let read = flash_read_with(&SMALL, device, &banks, &sram(), UPPER_BOOT + 4);
            cases.push(read);
        }
    }
}

/// A declined read carries out no step.
fn declined_addresses(cases: &mut Vec<Case>) {
    for nvmop in 2..8 {
        let device = launched(nvmop, LOWER_PROGRAM, 0);
        for address in [LOWER_PROGRAM + 2, LOWER_PROGRAM - 4, LOWER_PROGRAM + 256, 0] {
            let banks = ground(&SMALL, nvmop);
            let read = flash_read_with(&SMALL, device, &banks, &sram(), address);
            cases.push(read);
        }
    }
}

/// At most 16,384 words, whether the read waits, is of the other bank, or nothing runs.
fn sram_lengths(cases: &mut Vec<Case>) {
    let runs = launched(4, LOWER_BOOT, 6);
    for length in [SRAM_LIMIT - 1, SRAM_LIMIT, SRAM_LIMIT + 1, 20_000] {
        let sram = vec![0; length];
        for (device, address) in [
            (runs, LOWER_PROGRAM),
            (runs, LOWER_PROGRAM + 128),
            (idle(), LOWER_PROGRAM),
            (launched(2, LOWER_BOOT, 0), LOWER_BOOT),
        ] {
            let banks = filled(&SMALL, 0x1234_0000);
            let read = flash_read_with(&SMALL, device, &banks, &sram, address);
            cases.push(read);
        }
    }
}

/// A row's last words at the end of the longest SRAM, and one word past it.
fn rows_at_the_end_of_sram(cases: &mut Vec<Case>) {
    let geometry = geometry(2, 1, 1);
    let last = 4 * (SRAM_LIMIT as u32 - 8);
    for source in [last - 4, last, last + 4, last + 16, last + 20] {
        let device = with_register(running(3, UPPER_BOOT, 0), NVMSRCADDR, source);
        let mut words = vec![0; SRAM_LIMIT];
        for (index, word) in words.iter_mut().enumerate().skip(SRAM_LIMIT - 10) {
            *word = 700_000 + index as u32;
        }
        for address in [UPPER_BOOT, UPPER_BOOT + 28] {
            let banks = blank(&geometry);
            let read = flash_read_with(&geometry, device, &banks, &words, address);
            cases.push(read);
        }
    }
}

/// The longest operations, from their first step on blank banks and near their end on others.
fn largest_banks(cases: &mut Vec<Case>) {
    let region = LARGEST.page_quads() * LARGEST.program_pages;
    let empty = [1, 2].map(|_| vec![ALL_ONES; LARGEST.bank_words() as usize]);
    let words = [1, 2].map(|bank| vec![bank; LARGEST.bank_words() as usize]);
    let last = end(&LARGEST, WINDOWS[3]) - 4;
    for (nvmop, length) in [(5, region), (6, region), (7, 2 * region)] {
        cases.push(flash_read(&LARGEST, launched(nvmop, 0, 0), &empty, last));
        let device = launched(nvmop, 0, length - 2);
        for window in WINDOWS {
            let address = end(&LARGEST, window) - 4;
            cases.push(flash_read(&LARGEST, device, &words, address));
        }
    }
    let page = launched(4, last, 0);
    cases.push(flash_read(&LARGEST, page, &empty, last));
}
