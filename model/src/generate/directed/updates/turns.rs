//! Turns: each place of a whole update, block ends of larger ones, places around the total, declined actions.

use crate::cases::Case;
use crate::device::*;
use crate::geometry::{Geometry, ALL_ONES, LOWER_PROGRAM, SRAM_LIMIT, UPPER_BOOT};
use crate::sequence::word_of;
use crate::update::{erase_actions, program_place, total};

use super::super::parts::*;
use super::signs::{Sign, OLD};

/// The place of the first flash step, of every geometry.
const FIRST_STEP: u32 = 19;

pub fn cases() -> Vec<Case> {
    let mut cases = Vec::new();
    let places: Vec<u32> = (0..=total(&SMALL)).collect();
    Sign::full(SMALL, false).turns(&places, &mut cases);
    Sign::full(SMALL, true).turns(&block_ends(&SMALL, 1), &mut cases);
    for swapped in [false, true] {
        let several = geometry(2, 2, 2);
        Sign::sparse(several, swapped).turns(&block_ends(&several, 16), &mut cases);
        Sign::sparse(LARGEST, swapped).turns(&largest_places(), &mut cases);
        let sign = Sign::sparse(SMALL, swapped);
        around_the_total(&sign, &mut cases);
        stores_while_running(&sign, &mut cases);
        steps_while_idle(&sign, &mut cases);
        sequence_quads(&sign, &mut cases);
        other_operations(&sign, &mut cases);
        under_protection(&sign, &mut cases);
        after_errors(&sign, &mut cases);
        lengths(&sign, &mut cases);
    }
    cases
}

/// The first and last two places of part 1, of each page's erase and of each `stride`-th quad and the one before it.
fn block_ends(geometry: &Geometry, stride: u32) -> Vec<u32> {
    let (each, programming) = (erase_actions(geometry), program_place(geometry));
    let mut places = vec![0, 1, 10, 11];
    for page in 0..geometry.pages() {
        let first = 12 + page * each;
        places.extend([first, first + 6, first + 7, first + 8]);
        places.extend([first + each - 3, first + each - 2, first + each - 1]);
    }
    for quad in 0..geometry.pages() * geometry.page_quads() {
        let first = programming + 13 * quad;
        if quad % stride == 0 || quad % stride == stride - 1 {
            places.extend([first, first + 1, first + 4, first + 11, first + 12]);
        }
    }
    places.push(total(geometry));
    each_once(&places)
}

/// Ends of both windows in the largest banks, where their words are.
fn largest_places() -> Vec<u32> {
    let (each, programming) = (erase_actions(&LARGEST), program_place(&LARGEST));
    let mut places = vec![0, 11];
    for page in [0, 1, 4, 5, 68, 69, LARGEST.pages() - 1] {
        let first = 12 + page * each;
        places.extend([first, first + 7, first + each - 2, first + each - 1]);
    }
    let program = LARGEST.program_pages * LARGEST.page_quads();
    let all = LARGEST.pages() * LARGEST.page_quads();
    for quad in [0, program - 1, program, all - 2, all - 1] {
        let first = programming + 13 * quad;
        places.extend([first, first + 1, first + 4, first + 11, first + 12]);
    }
    places.push(total(&LARGEST));
    each_once(&places)
}

/// Done at the total and only there, idle or running; decline 13 past it.
fn around_the_total(sign: &Sign, cases: &mut Vec<Case>) {
    let total = total(&sign.geometry);
    for sign in [sign.clone(), sign.at(total), sign.at(FIRST_STEP)] {
        for place in [total - 1, total, total + 1, total + 13, 1 << 31, ALL_ONES] {
            cases.push(sign.turn(place));
        }
    }
}

/// One place of each kind of store.
fn store_places(geometry: &Geometry) -> Vec<u32> {
    let programming = program_place(geometry);
    let mut places = vec![0, 1, 2, 3, 6, 7, 11, 12, 13, 14, 15, 18, 27];
    places.extend([0, 1, 5, 6, 7, 10, 12].map(|number| programming + number));
    places
}

/// Decline 5, but for stores to NVMADDR and NVMDATA0 to 3.
fn stores_while_running(sign: &Sign, cases: &mut Vec<Case>) {
    let mapping = sign.device.registers[NVMCON];
    for place in store_places(&sign.geometry) {
        let device = with_con(running(4, UPPER_BOOT, 3), mapping);
        cases.push(sign.with_device(device).turn(place));
    }
    for nvmop in 2..8 {
        let device = with_con(running(nvmop, LOWER_PROGRAM, 0), mapping);
        cases.push(sign.with_device(device).turn(0));
    }
}

/// Decline 6: steps of part 2 and of part 3, also where the launch before them failed.
fn steps_while_idle(sign: &Sign, cases: &mut Vec<Case>) {
    let programming = program_place(&sign.geometry);
    let ready = with_con(ready(4, UPPER_BOOT), sign.device.registers[NVMCON]);
    for device in [sign.device, ready, with_con(ready, WRERR)] {
        for place in [FIRST_STEP, FIRST_STEP + 7, programming + 11] {
            cases.push(sign.with_device(device).turn(place));
        }
    }
}

/// t "read at each turn", also of a word that isn't valid; T is t+1 "modulo 65,536".
fn sequence_quads(sign: &Sign, cases: &mut Vec<Case>) {
    let first = total(&sign.geometry) - 13;
    for own in [
        word_of(OLD),
        word_of(255),
        word_of(65_534),
        word_of(65_535),
        0,
        ALL_ONES,
        0x1234_5678,
    ] {
        let sign = sign.with_sequences(own, word_of(9));
        for place in [first, first + 1, first + 2, first + 4] {
            cases.push(sign.turn(place));
        }
    }
}

/// A step is one of the operation that runs, whatever the place's own would be.
fn other_operations(sign: &Sign, cases: &mut Vec<Case>) {
    let mapping = sign.device.registers[NVMCON];
    let sram = [1, 2, 3, 4, 5, 6, 7, 8];
    for nvmop in 2..8 {
        for place in [FIRST_STEP, program_place(&sign.geometry) + 11] {
            let device = with_con(running(nvmop, LOWER_PROGRAM + 128, 0), mapping);
            let device = with_register(device, NVMSRCADDR, 12);
            let mut sign = sign.with_device(device);
            for bank in &mut sign.banks {
                bank[36..40].fill(ALL_ONES);
                bank[32..36].fill(if nvmop < 4 { ALL_ONES } else { 0 });
            }
            cases.push(sign.turn_with(&sram, place));
        }
    }
}

/// Pages protected in the middle: boot pages count, program pages fail at the launch.
fn under_protection(sign: &Sign, cases: &mut Vec<Case>) {
    let (each, programming) = (erase_actions(&sign.geometry), program_place(&sign.geometry));
    for (place, register, value) in [
        (FIRST_STEP, NVMBWP, RESETS[NVMBWP]),
        (FIRST_STEP + 7, NVMBWP, RESETS[NVMBWP]),
        (12 + each + 6, NVMPWP, sign.geometry.region_bytes()),
        (12 + each + 6, NVMPWP, sign.geometry.region_bytes() - 1),
        (programming + 10, NVMPWP, PWP),
        (total(&sign.geometry) - 2, NVMBWP, RESETS[NVMBWP]),
    ] {
        let sign = sign.at(place);
        let device = with_register(sign.device, register, value);
        cases.push(sign.with_device(device).turn(place));
    }
}

/// Errors stop a launch; NVMOP 0 clears them; stores that find WREN, the key or a lock otherwise.
fn after_errors(sign: &Sign, cases: &mut Vec<Case>) {
    for place in [1, 2, 6, 7, 11, 13, 18] {
        let sign = sign.at(place);
        let device = sign.device;
        let locked = device.registers[NVMBWP] & !UBWPULOCK;
        for device in [
            with_con(device, WRERR),
            with_con(device, LVDERR),
            with_con(device, WREN),
            with_key(device, 2),
            with_register(device, NVMBWP, locked),
        ] {
            cases.push(sign.with_device(device).turn(place));
        }
    }
}

/// Decline 2: banks, image and SRAM around their lengths.
fn lengths(sign: &Sign, cases: &mut Vec<Case>) {
    let right = sign.image.len();
    for (list, length) in [
        (0, right - 1),
        (1, right + 1),
        (2, right - 1),
        (2, right + 1),
        (2, 0),
        (3, SRAM_LIMIT),
        (3, SRAM_LIMIT + 1),
        (3, 20_000),
    ] {
        for (sign, place) in [
            (sign.clone(), 0),
            (sign.clone(), total(&sign.geometry)),
            (sign.at(FIRST_STEP), FIRST_STEP),
        ] {
            let mut case = sign.turn_with(&[], place);
            case.lists[list].length = length;
            case.lists[list].pairs.retain(|(index, _)| *index < length);
            cases.push(case);
        }
    }
}
