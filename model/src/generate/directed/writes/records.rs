//! What the records hold: the addresses of a geometry, the words of an image, the sequence quad of t, and nothing else of the sign.

use crate::cases::Case;
use crate::device::*;
use crate::geometry::{Geometry, ALL_ONES, ROW_QUADS};
use crate::sequence::word_of;

use super::super::parts::*;
use super::super::updates::{Sign, OLD};
use super::written;

/// Signs with one or more pages of each kind, whose scripts are short.
const SIGNS: [Geometry; 5] = [
    SMALL,
    geometry(1, 5, 1),
    geometry(2, 1, 2),
    SEVERAL,
    geometry(4, 2, 1),
];

pub fn cases() -> Vec<Case> {
    let mut cases = Vec::new();
    for swapped in [false, true] {
        for geometry in SIGNS {
            cases.push(written(&Sign::full(geometry, swapped)));
        }
        let sign = Sign::blank(SMALL, swapped);
        numbers(&sign, &mut cases);
        images(&sign, &mut cases);
        devices(&sign, &mut cases);
        banks(&sign, &mut cases);
    }
    for row_quads in ROW_QUADS {
        cases.push(written(&Sign::sparse(geometry(row_quads, 1, 1), true)));
    }
    for geometry in [geometry(1, 1, 64), geometry(1, 1, 65), MANY_PAGES] {
        cases.push(written(&Sign::sparse(geometry, false)));
    }
    cases
}

/// t = 65,534 is the last that starts; t+1 carries into the second byte and into the highest bit.
fn numbers(sign: &Sign, cases: &mut Vec<Case>) {
    for low in [
        0, 1, 254, 255, 256, 0x7FFE, 0x7FFF, 0x8000, 65_533, 65_534, 65_535,
    ] {
        cases.push(written(&sign.with_sequences(word_of(low), ALL_ONES)));
    }
}

/// Equal words, one word that differs, and words in the sequence quad, which "is ignored".
fn images(sign: &Sign, cases: &mut Vec<Case>) {
    let sequence = sign.geometry.sequence_index();
    for fill in [0, ALL_ONES, 0x0102_0304] {
        cases.push(written(&with_image(sign, |image| image.fill(fill))));
    }
    let words = sign.image.len();
    for index in [0, 1, 2, 3, sequence - 1, sequence + 4, words - 1] {
        let change = |image: &mut [u32]| image[index] = 0x8040_2010;
        cases.push(written(&with_image(sign, change)));
    }
    for index in sequence..sequence + 4 {
        let change = |image: &mut [u32]| image[index] = word_of(OLD + 5);
        cases.push(written(&with_image(sign, change)));
    }
}

fn with_image(sign: &Sign, change: impl FnOnce(&mut [u32])) -> Sign {
    let mut sign = sign.clone();
    change(&mut sign.image);
    sign
}

/// Registers and key steps that a start accepts.
fn devices(sign: &Sign, cases: &mut Vec<Case>) {
    let device = sign.device;
    let region = sign.geometry.region_bytes();
    for device in [
        with_con(device, WREN | 15),
        with_con(device, WRERR | LVDERR | 4),
        with_key(device, 1),
        with_key(device, 3),
        with_pwp(device, region - 1),
        with_register(device, NVMPWP, 1),
        with_register(device, NVMBWP, UBWPULOCK | BWP_ALWAYS),
        with_register(device, NVMADDR, ALL_ONES),
        with_register(device, NVMDATA0, 0x1234),
        with_register(device, NVMSRCADDR, 3),
        with_register(device, NVMCON2, 0),
        with_register(device, NVMCON2, MASKS[NVMCON2]),
    ] {
        cases.push(written(&sign.with_device(device)));
    }
}

/// The words of both banks, but for t.
fn banks(sign: &Sign, cases: &mut Vec<Case>) {
    let (own, other) = (word_of(OLD), word_of(OLD - 1));
    for words in [0, ALL_ONES, word_of(OLD + 1)] {
        let mut sign = sign.clone();
        for bank in &mut sign.banks {
            bank.fill(words);
        }
        cases.push(written(&sign.with_sequences(own, other)));
    }
    for other in [ALL_ONES, word_of(0), other | 0x0001_0001] {
        cases.push(written(&sign.with_sequences(own, other)));
    }
}
