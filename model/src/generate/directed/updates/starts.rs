//! Update starts: declines 10, 11 and 12 at their edges, and what does not matter to them.

use crate::cases::Case;
use crate::device::*;
use crate::geometry::{Geometry, ALL_ONES, ROW_QUADS, UPPER_BOOT};
use crate::sequence::word_of;

use super::super::parts::*;
use super::signs::{Sign, OLD};

pub fn cases() -> Vec<Case> {
    let mut cases = Vec::new();
    totals(&mut cases);
    for swapped in [false, true] {
        let sign = Sign::blank(SMALL, swapped);
        own_word(&sign, &mut cases);
        other_number(&sign, &mut cases);
        other_word(&sign, &mut cases);
        last_numbers(&sign, &mut cases);
        swaps(&sign, &mut cases);
        upper_lock(&sign, &mut cases);
        other_values(&sign, &mut cases);
        while_running(&sign, &mut cases);
        lengths(&sign, &mut cases);
    }
    for geometry in [SMALL, geometry(2, 2, 2), SEVERAL, LARGEST] {
        protected_region(&geometry, &mut cases);
    }
    cases
}

/// "gives place 0 and the total", whatever the geometry.
fn totals(cases: &mut Vec<Case>) {
    for row_quads in ROW_QUADS {
        for (boot_pages, program_pages) in [(1, 1), (2, 3), (5, 64), (1, 65), (5, 128)] {
            let geometry = geometry(row_quads, boot_pages, program_pages);
            cases.push(Sign::blank(geometry, row_quads > 8).start());
        }
    }
}

/// "the lower-alias bank's sequence is invalid": each bit of its word flipped.
fn own_word(sign: &Sign, cases: &mut Vec<Case>) {
    let words = (0..32).map(|bit| word_of(OLD) ^ 1 << bit);
    for own in words.chain([word_of(OLD), 0, ALL_ONES]) {
        for other in [ALL_ONES, word_of(OLD - 1)] {
            cases.push(sign.with_sequences(own, other).start());
        }
    }
}

/// "a reset would choose the other bank": T below, at and above that of the old bank.
fn other_number(sign: &Sign, cases: &mut Vec<Case>) {
    for own in [0, 1, OLD, 255, 256, 0x7FFF, 0x8000, 65_534] {
        for other in [0, own.wrapping_sub(1), own, own + 1, 0x7FFF, 65_535] {
            let sign = sign.with_sequences(word_of(own), word_of(other));
            cases.push(sign.start());
        }
    }
}

/// "the other bank's sequence word is invalid with no bit position at 1 in both halves".
fn other_word(sign: &Sign, cases: &mut Vec<Case>) {
    let valid = word_of(OLD - 1);
    let mut words = vec![0, ALL_ONES, 0x0000_FFFF, 0xFFFF_0000];
    for bit in 0..32 {
        words.extend([1 << bit, !(1 << bit), valid ^ 1 << bit]);
    }
    for bit in 0..16 {
        let both = 0x0001_0001 << bit;
        words.extend([both, both | 1 << ((bit + 5) % 16), !both]);
    }
    for word in words {
        cases.push(sign.with_sequences(word_of(OLD), word).start());
    }
}

/// Decline 11: "t = 65,535".
fn last_numbers(sign: &Sign, cases: &mut Vec<Case>) {
    for own in [0, 1, 65_533, 65_534, 65_535] {
        for other in [ALL_ONES, 0, word_of(0), word_of(65_534), word_of(65_535)] {
            cases.push(sign.with_sequences(word_of(own), other).start());
        }
    }
}

/// "PFSWAP differs from BFSWAP", and BFSWAP from what a reset would choose.
fn swaps(sign: &Sign, cases: &mut Vec<Case>) {
    for mapping in MAPPINGS {
        let device = with_register(sign.device, NVMCON, mapping);
        cases.push(sign.with_device(device).start());
    }
}

/// Decline 12: "UBWPULOCK = 0", whatever else NVMBWP holds.
fn upper_lock(sign: &Sign, cases: &mut Vec<Case>) {
    for lock in [0, UBWPULOCK] {
        for rest in [0, LBWPULOCK, UBWP, LBWP, LBWPULOCK | LBWP | UBWP] {
            let device = with_register(sign.device, NVMBWP, BWP_ALWAYS | lock | rest);
            cases.push(sign.with_device(device).start());
        }
    }
}

/// Decline 12: "PWP at least P×128×Q", whether or not PWPULOCK is 1.
fn protected_region(geometry: &Geometry, cases: &mut Vec<Case>) {
    let sign = Sign::blank(*geometry, false);
    let (page, region) = (geometry.page_bytes(), geometry.region_bytes());
    for pwp in each_once(&[
        0,
        1,
        page,
        region - page,
        region - 1,
        region,
        region + 1,
        2 * region,
        PWP,
    ]) {
        for lock in [0, PWPULOCK] {
            let device = with_register(sign.device, NVMPWP, lock | pwp);
            cases.push(sign.with_device(device).start());
        }
    }
}

/// WREN, errors, NVMOP, the key, SWAPLOCK and the other registers.
fn other_values(sign: &Sign, cases: &mut Vec<Case>) {
    for bits in [WREN, WRERR, LVDERR, NVMOP, WREN | WRERR | LVDERR | 4] {
        cases.push(sign.with_device(with_con(sign.device, bits)).start());
    }
    for key_step in 1..4 {
        cases.push(sign.with_device(with_key(sign.device, key_step)).start());
    }
    for (register, value) in [
        (NVMADDR, ALL_ONES),
        (NVMDATA0, 0x1234),
        (NVMSRCADDR, 3),
        (NVMCON2, 0),
        (NVMCON2, MASKS[NVMCON2]),
    ] {
        let device = with_register(sign.device, register, value);
        cases.push(sign.with_device(device).start());
    }
}

/// Decline 5.
fn while_running(sign: &Sign, cases: &mut Vec<Case>) {
    for nvmop in 2..8 {
        let mapping = sign.device.registers[NVMCON];
        let device = with_con(running(nvmop, UPPER_BOOT, 0), mapping);
        cases.push(sign.with_device(device).start());
    }
}

/// Decline 2: each bank and the image a word short and a word long, and no image.
fn lengths(sign: &Sign, cases: &mut Vec<Case>) {
    let right = sign.image.len();
    for list in 0..3 {
        for length in [0, right - 1, right + 1] {
            let mut case = sign.start();
            case.lists[list].length = length;
            case.lists[list].pairs.retain(|(index, _)| *index < length);
            cases.push(case);
        }
    }
}
