//! What follows a read that waited inside an update: the turn of a step that is done is declined, and other calls find nothing running.

use crate::cases::Case;
use crate::flash;
use crate::geometry::{Banks, Kind, Side, ALL_ONES};
use crate::update::program_place;

use super::super::parts::*;
use super::super::updates::Sign;

/// The place of the first flash step.
const FIRST_STEP: u32 = 19;

pub fn cases() -> Vec<Case> {
    let mut cases = Vec::new();
    let programmed = program_place(&SMALL) + 11;
    let last = program_place(&SMALL) + 15 * 13 + 11;
    for swapped in [false, true] {
        let sign = Sign::sparse(SMALL, swapped);
        for place in [FIRST_STEP, 22, 26, 35, programmed, last] {
            reads(&sign.at(place), &mut cases);
            after_waiting(&sign.at(place), place, &mut cases);
        }
    }
    cases
}

/// Reads of both banks where a step is the next action.
fn reads(sign: &Sign, cases: &mut Vec<Case>) {
    for window in WINDOWS {
        let address = end(&sign.geometry, window) - 16;
        let (device, banks) = (sign.device, &sign.banks);
        cases.push(flash_read(&sign.geometry, device, banks, address));
    }
}

/// The turns around the place, a step, resets, start-up and update start after a read of the new bank.
fn after_waiting(sign: &Sign, place: u32, cases: &mut Vec<Case>) {
    let sign = waited(sign);
    for near in place - 1..place + 3 {
        cases.push(sign.turn(near));
    }
    let (geometry, device, banks) = (&sign.geometry, sign.device, &sign.banks);
    cases.push(step(geometry, device, banks, &[]));
    for kind in 0..3 {
        cases.push(reset(geometry, device, banks, &[], kind, [ALL_ONES; 4]));
    }
    cases.push(start_up(geometry, device));
    cases.push(sign.start());
}

/// The sign after a read of the new bank's first boot word.
fn waited(sign: &Sign) -> Sign {
    let mut sign = sign.clone();
    let numbers = sign.geometry.numbers();
    let address = sign.geometry.window_start(Kind::Boot, Side::Upper);
    let [one, two] = &mut sign.banks;
    let mut banks = Banks { one, two };
    if let Ok(read) = flash::flash_read(numbers, sign.device, &mut banks, &[], address) {
        sign.device = read.device;
    }
    sign
}
