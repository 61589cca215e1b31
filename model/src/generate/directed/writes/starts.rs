//! The update start's own declines, beside a buffer that takes the script and one that does not.

use crate::cases::Case;
use crate::device::*;
use crate::geometry::{Geometry, ALL_ONES, UPPER_BOOT};
use crate::sequence::word_of;
use crate::write_script::script_bytes;

use super::super::impossible::reasons;
use super::super::parts::*;
use super::super::updates::{Sign, OLD};
use super::written;

pub fn cases() -> Vec<Case> {
    let mut cases = Vec::new();
    for swapped in [false, true] {
        let sign = Sign::blank(SMALL, swapped);
        let refused = [sequences(&sign), swaps(&sign), protected(&sign)].concat();
        for sign in refused.into_iter().chain(running_signs(&sign)) {
            both_buffers(&sign, &mut cases);
        }
        lengths(&sign, &mut cases);
    }
    for device in reasons() {
        cases.push(written(&Sign::blank(SMALL, false).with_device(device)));
    }
    cases.extend(REFUSED.map(refused_sign));
    cases
}

/// Into a buffer of the script's length, and into one a byte shorter.
fn both_buffers(sign: &Sign, cases: &mut Vec<Case>) {
    let shorter = script_bytes(&sign.geometry) as usize - 1;
    cases.extend([written(sign), sign.write(&vec![0; shorter])]);
}

/// Declines 10 and 11, each clause beside its neighbour.
fn sequences(sign: &Sign) -> Vec<Sign> {
    let (own, last) = (word_of(OLD), word_of(65_535));
    let other = word_of(OLD - 1);
    [
        (own ^ 1, other),
        (own ^ 0x8000_0000, ALL_ONES),
        (ALL_ONES, ALL_ONES),
        (own, word_of(OLD)),
        (own, word_of(OLD + 1)),
        (own, 0),
        (own, 0x0001_0000),
        (own, 0x0001_0001),
        (own, other & !1),
        (word_of(65_534), word_of(65_533)),
        (word_of(65_534), last),
        (last, ALL_ONES),
        (last, word_of(65_534)),
        (last, last),
        (last, 0),
    ]
    .map(|(own, other)| sign.with_sequences(own, other))
    .to_vec()
}

/// Decline 10: BFSWAP and PFSWAP.
fn swaps(sign: &Sign) -> Vec<Sign> {
    MAPPINGS
        .map(|mapping| sign.with_device(with_register(sign.device, NVMCON, mapping)))
        .to_vec()
}

/// Decline 12 by UBWPULOCK, and by PWP around P×128×Q.
fn protected(sign: &Sign) -> Vec<Sign> {
    let (device, region) = (sign.device, sign.geometry.region_bytes());
    [
        with_register(device, NVMBWP, RESETS[NVMBWP] & !UBWPULOCK),
        with_pwp(device, region - 1),
        with_pwp(device, region),
        with_pwp(device, PWP),
        with_register(device, NVMPWP, region),
    ]
    .map(|device| sign.with_device(device))
    .to_vec()
}

/// Decline 5.
fn running_signs(sign: &Sign) -> Vec<Sign> {
    let mapping = sign.device.registers[NVMCON];
    let running = |nvmop| with_con(running(nvmop, UPPER_BOOT, 0), mapping);
    (2..8)
        .map(|nvmop| sign.with_device(running(nvmop)))
        .collect()
}

/// Decline 2: each bank and the image a word short and a word long, and none.
fn lengths(sign: &Sign, cases: &mut Vec<Case>) {
    let right = sign.image.len();
    for list in 0..3 {
        for length in [0, right - 1, right + 1] {
            let mut case = written(sign);
            case.lists[list].length = length;
            case.lists[list].pairs.retain(|(index, _)| *index < length);
            cases.push(case);
        }
    }
}

/// Decline 1, with banks and a buffer as long as the sizes would ask for.
fn refused_sign(geometry: Geometry) -> Case {
    let words = geometry.bank_words() as usize;
    let banks = [vec![0; words], vec![0; words]];
    let buffer = vec![0; script_bytes(&geometry) as usize];
    write_script(&geometry, idle(), &banks, &vec![0; words], &buffer)
}
