//! Resets that tear the sequence quad: the comparison sees the word after the tear.

use crate::cases::Case;
use crate::device::*;
use crate::geometry::{Geometry, Kind, Side, ALL_ONES};
use crate::sequence::word_of;

use super::parts::*;

pub fn cases() -> Vec<Case> {
    let mut cases = Vec::new();
    for kind in 0..3 {
        for mapping in [0, BFSWAP] {
            programmed(kind, mapping, &mut cases);
            programmed_by_row(kind, mapping, &mut cases);
            erased(kind, mapping, &mut cases);
            erased_into_a_valid_word(kind, mapping, &mut cases);
        }
    }
    protected(&mut cases);
    cases
}

/// An operation on the sequence quad of the upper alias's bank.
fn upper(geometry: &Geometry, nvmop: u32, step: u32, mapping: u32) -> Device {
    let address = end(geometry, (Kind::Boot, Side::Upper)) - 1;
    with_con(running(nvmop, address, step), mapping)
}

/// Blank banks with the sequence words of the lower and the upper alias's bank.
fn sequences(geometry: &Geometry, mapping: u32, lower: u32, upper: u32) -> Pair {
    let mut banks = blank(geometry);
    let number = usize::from(mapping & BFSWAP != 0);
    banks[number][geometry.sequence_index()] = lower;
    banks[1 - number][geometry.sequence_index()] = upper;
    banks
}

/// Masks of word 0: all old, all new, halves, all but one bit, one bit.
const MASKS_OF_WORD: [u32; 6] = [
    0,
    ALL_ONES,
    0x0000_FFFF,
    0xFFFF_0000,
    0xFFFF_FFFD,
    0x0002_0000,
];

/// A new sequence word above, at and below the old bank's.
fn programmed(kind: u32, mapping: u32, cases: &mut Vec<Case>) {
    for low in [2, 3, 4] {
        let mut device = upper(&SMALL, 2, 0, mapping);
        device.registers[NVMDATA0] = word_of(low);
        for mask in MASKS_OF_WORD {
            if low < 4 && mask != ALL_ONES {
                continue;
            }
            let banks = sequences(&SMALL, mapping, word_of(3), ALL_ONES);
            let mask = [mask, ALL_ONES, 0, 0xFFFF];
            cases.push(reset(&SMALL, device, &banks, &[], kind, mask));
        }
    }
}

/// The last quad of the last row, from SRAM.
fn programmed_by_row(kind: u32, mapping: u32, cases: &mut Vec<Case>) {
    let geometry = geometry(2, 1, 1);
    let mut sram = vec![0; 8];
    sram[4] = word_of(9);
    for step in 0..2 {
        for mask in [ALL_ONES, 0] {
            let device = upper(&geometry, 3, step, mapping);
            let banks = sequences(&geometry, mapping, word_of(8), ALL_ONES);
            cases.push(reset(&geometry, device, &banks, &sram, kind, [mask; 4]));
        }
    }
}

/// The winner's sequence word torn on its way to all ones.
fn erased(kind: u32, mapping: u32, cases: &mut Vec<Case>) {
    for (step, mask) in [
        (7, 0),
        (7, ALL_ONES),
        (7, 0x0000_FFFF),
        (7, 0xFFFF_0000),
        (7, 0x0000_0010),
        (7, !word_of(5)),
        (7, word_of(5)),
        (6, ALL_ONES),
    ] {
        let device = upper(&SMALL, 4, step, mapping);
        let banks = sequences(&SMALL, mapping, word_of(4), word_of(5));
        cases.push(reset(&SMALL, device, &banks, &[], kind, [mask; 4]));
    }
}

/// A word that is not valid, and is where some of its bits rise.
fn erased_into_a_valid_word(kind: u32, mapping: u32, cases: &mut Vec<Case>) {
    let worn = word_of(6) & !0x0008_0000;
    for mask in [0, 0x0008_0000, 0x0008_0001, 0x0004_0000, ALL_ONES] {
        let device = upper(&SMALL, 4, 7, mapping);
        let banks = sequences(&SMALL, mapping, word_of(4), worn);
        let mask = [mask, 0, 0, 0];
        cases.push(reset(&SMALL, device, &banks, &[], kind, mask));
    }
}

/// In a protected page the word stays, and so does the winner.
fn protected(cases: &mut Vec<Case>) {
    for nvmop in [2, 4] {
        for nvmbwp in [RESETS[NVMBWP], UNPROTECTED | LBWP, UNPROTECTED | UBWP] {
            let step = if nvmop == 4 { 7 } else { 0 };
            let mut device = upper(&SMALL, nvmop, step, 0);
            device.registers[NVMDATA0] = word_of(9);
            device.registers[NVMBWP] = nvmbwp;
            let word = if nvmop == 4 { word_of(5) } else { ALL_ONES };
            let banks = sequences(&SMALL, 0, word_of(4), word);
            cases.push(reset(&SMALL, device, &banks, &[], 2, [ALL_ONES; 4]));
        }
    }
}
