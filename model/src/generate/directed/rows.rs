//! Rows programmed from SRAM, as steps and torn by resets.

use crate::cases::Case;
use crate::device::{Device, NVMBWP, NVMSRCADDR, RESETS};
use crate::geometry::{Geometry, Kind, Side, ALL_ONES, LOWER_PROGRAM, ROW_QUADS, SRAM_LIMIT};

use super::parts::*;

/// NVMOP 3.
const ROW: u32 = 3;

/// NVMSRCADDR where it doesn't matter: the third word.
const SOURCE: u32 = 8;

/// Old bits stay in words 1 and 2 of the quad.
const MASK: [u32; 4] = [ALL_ONES, 0x0000_FFFF, 0xF0F0_F0F0, ALL_ONES];

pub fn cases() -> Vec<Case> {
    let mut cases = Vec::new();
    for row_quads in ROW_QUADS {
        let geometry = geometry(row_quads, 1, 1);
        for step in each_once(&[0, row_quads / 2, row_quads - 1]) {
            end_of_sram(&geometry, step, &mut cases);
            if [1, 2, 8, 128].contains(&row_quads) {
                longest_sram(&geometry, step, &mut cases);
                sums_near_the_end(&geometry, step, &mut cases);
                unaligned_sources(&geometry, step, &mut cases);
            }
        }
    }
    targets_not_blank(&mut cases);
    protected_rows(&mut cases);
    every_window(&mut cases);
    rounded_addresses(&mut cases);
    cases
}

/// The word of SRAM that a row's step uses first, by a sum that doesn't wrap.
fn first_word(source: u32, step: u32) -> usize {
    ((u64::from(source) + 16 * u64::from(step)) / 4) as usize
}

/// SRAM whose first words, and those around an index, name their index.
fn sram(length: usize, index: usize) -> Vec<u32> {
    let mut words = vec![0x5A5A_5A5A; length];
    let around = index.saturating_sub(1)..index.saturating_add(5);
    for place in (0..6).chain(around) {
        if let Some(word) = words.get_mut(place) {
            *word = 1_000 + place as u32;
        }
    }
    words
}

/// A row step at the lower program region, with NVMSRCADDR.
fn row(source: u32, step: u32) -> Device {
    with_register(running(ROW, LOWER_PROGRAM, step), NVMSRCADDR, source)
}

/// The same inputs as a step and as a reset of each kind in turn.
fn both(geometry: &Geometry, device: Device, banks: &Pair, sram: &[u32], cases: &mut Vec<Case>) {
    let kind = cases.len() as u32 / 2 % 3;
    cases.push(step(geometry, device, banks, sram));
    cases.push(reset(geometry, device, banks, sram, kind, MASK));
}

/// SRAM that ends with the last word used, or short of it.
fn end_of_sram(geometry: &Geometry, step: u32, cases: &mut Vec<Case>) {
    let first = first_word(SOURCE, step);
    let mut lengths = vec![first + 3, first + 4];
    if geometry.row_quads <= 4 {
        lengths.extend([0, first, first + 1, first + 2, first + 5]);
    }
    for length in lengths {
        let sram = sram(length, first);
        both(geometry, row(SOURCE, step), &blank(geometry), &sram, cases);
    }
}

/// At most 16,384 words: the last one used, one past it, and longer SRAM.
fn longest_sram(geometry: &Geometry, step: u32, cases: &mut Vec<Case>) {
    let last = 4 * (SRAM_LIMIT as u32 - 4) - 16 * step;
    for (source, length) in [
        (last, SRAM_LIMIT),
        (last, SRAM_LIMIT - 1),
        (last + 4, SRAM_LIMIT),
        (last, SRAM_LIMIT + 1),
        (last + 4, SRAM_LIMIT + 1),
    ] {
        let sram = sram(length, first_word(source, step));
        both(geometry, row(source, step), &blank(geometry), &sram, cases);
    }
}

/// Sums at, below and past 2 to the power of 32; cut to 32 bits they would be in the SRAM.
fn sums_near_the_end(geometry: &Geometry, step: u32, cases: &mut Vec<Case>) {
    let wrapping = 0_u32.wrapping_sub(16 * step);
    let sources = [
        0,
        wrapping,
        wrapping.wrapping_add(8),
        wrapping.wrapping_sub(8),
        wrapping.wrapping_sub(16),
    ];
    for source in each_once(&sources) {
        let sram = sram(4 * geometry.row_quads as usize + 8, 4 * step as usize);
        both(geometry, row(source, step), &blank(geometry), &sram, cases);
    }
}

/// "an address not a multiple of 4".
fn unaligned_sources(geometry: &Geometry, step: u32, cases: &mut Vec<Case>) {
    let first = first_word(SOURCE, step);
    for source in SOURCE + 1..SOURCE + 5 {
        let sram = sram(first + 8, first);
        both(geometry, row(source, step), &blank(geometry), &sram, cases);
    }
}

/// One bit at 0 in the quad or beside it.
fn targets_not_blank(cases: &mut Vec<Case>) {
    let geometry = geometry(2, 1, 1);
    let first = geometry.page_words() as usize + 4;
    for (place, bit) in [(0, 0), (1, 31), (2, 7), (3, 16), (4, 0)] {
        let mut banks = blank(&geometry);
        banks[0][first + place] = !(1 << bit);
        banks[0][first - 1] = 0;
        let sram = sram(16, first_word(SOURCE, 1));
        both(&geometry, row(SOURCE, 1), &banks, &sram, cases);
    }
}

/// Protected boot pages: the step counts, even where there is no data.
fn protected_rows(cases: &mut Vec<Case>) {
    let geometry = geometry(2, 1, 1);
    for side in [Side::Lower, Side::Upper] {
        let address = start(&geometry, (Kind::Boot, side));
        for (nvmbwp, step, source) in [
            (RESETS[NVMBWP], 0, SOURCE),
            (RESETS[NVMBWP], 1, SOURCE),
            (RESETS[NVMBWP], 1, SOURCE + 1),
            (UNPROTECTED, 1, SOURCE),
        ] {
            let device = with_register(running(ROW, address, step), NVMSRCADDR, source);
            let device = with_register(device, NVMBWP, nvmbwp);
            both(&geometry, device, &blank(&geometry), &[], cases);
            let sram = sram(16, first_word(source, step));
            both(&geometry, device, &blank(&geometry), &sram, cases);
        }
    }
}

/// The quad's bank and index by window and mapping.
fn every_window(cases: &mut Vec<Case>) {
    let geometry = geometry(2, 2, 2);
    for mapping in MAPPINGS {
        for window in WINDOWS {
            let address = end(&geometry, window) - 1;
            let device = with_register(running(ROW, address, 1), NVMSRCADDR, SOURCE);
            let mut banks = blank(&geometry);
            for bank in &mut banks {
                bank[geometry.sequence_index()] = ALL_ONES;
            }
            let sram = sram(16, first_word(SOURCE, 1));
            both(&geometry, with_con(device, mapping), &banks, &sram, cases);
        }
    }
}

/// "rounded down to .. 16×Q .. bytes".
fn rounded_addresses(cases: &mut Vec<Case>) {
    let geometry = geometry(4, 1, 1);
    for offset in [0, 15, 16, 63, 64, 127, 128, 511] {
        let device = running(ROW, LOWER_PROGRAM + offset, 2);
        let device = with_register(device, NVMSRCADDR, SOURCE);
        let sram = sram(16, first_word(SOURCE, 2));
        both(&geometry, device, &blank(&geometry), &sram, cases);
    }
}
