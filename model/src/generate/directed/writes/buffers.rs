//! The buffer: its length around that of the script, and what it held before.

use crate::cases::Case;
use crate::geometry::{Banks, ROW_QUADS};
use crate::write_script::{script_bytes, write_script};

use super::super::parts::*;
use super::super::updates::Sign;

pub fn cases() -> Vec<Case> {
    let mut cases = Vec::new();
    for swapped in [false, true] {
        let sign = Sign::full(SMALL, swapped);
        lengths(&sign, &mut cases);
        contents(&sign, &mut cases);
    }
    for row_quads in ROW_QUADS {
        edges(&Sign::sparse(geometry(row_quads, 1, 1), false), &mut cases);
    }
    edges(&Sign::sparse(SEVERAL, true), &mut cases);
    for geometry in [MANY_PAGES, LARGEST] {
        shorter(&Sign::sparse(geometry, false), &mut cases);
    }
    cases
}

/// Zeros, from none of them to twice as many as the script has bytes.
fn lengths(sign: &Sign, cases: &mut Vec<Case>) {
    let right = script_bytes(&sign.geometry);
    let short = [0, 1, 7, 8, 9, right / 2, right - 9, right - 8, right - 7];
    let around = [right - 2, right - 1, right, right + 1, right + 2];
    let long = [right + 7, right + 8, right + 9, 2 * right];
    for length in each_once(&[&short[..], &around, &long].concat()) {
        cases.push(sign.write(&vec![0; length as usize]));
    }
}

/// A byte short, the exact length, and longer, for rows and pages of any size.
fn edges(sign: &Sign, cases: &mut Vec<Case>) {
    shorter(sign, cases);
    let right = script_bytes(&sign.geometry) as usize;
    for length in [right, right + 1] {
        cases.push(sign.write(&vec![0; length]));
    }
}

/// A record and a byte short, without the sizes that only a long line would show.
fn shorter(sign: &Sign, cases: &mut Vec<Case>) {
    let right = script_bytes(&sign.geometry) as usize;
    for length in [right - 8, right - 1] {
        cases.push(sign.write(&vec![0; length]));
    }
}

/// Equal bytes, bytes by their index, and the script itself but for one byte.
fn contents(sign: &Sign, cases: &mut Vec<Case>) {
    let right = script_bytes(&sign.geometry) as usize;
    for length in [right - 1, right, right + 1, right + 8] {
        for fill in [1, 2, 0xFF] {
            cases.push(sign.write(&vec![fill; length]));
        }
        let numbered: Vec<u8> = (0..length).map(|index| (index % 251) as u8).collect();
        cases.push(sign.write(&numbered));
    }
    let script = script(sign);
    cases.push(sign.write(&script));
    for index in [0, 1, 2, 3, 4, 7, 8, right / 2, right - 1, right, right + 1] {
        let mut buffer = script.clone();
        buffer[index] ^= 0x80;
        cases.push(sign.write(&buffer));
    }
}

/// The script of a sign's update, and two bytes more.
fn script(sign: &Sign) -> Vec<u8> {
    let [mut one, mut two] = sign.banks.clone();
    let banks = Banks {
        one: &mut one,
        two: &mut two,
    };
    let numbers = sign.geometry.numbers();
    let mut buffer = vec![0; script_bytes(&sign.geometry) as usize + 2];
    // An accepted call; a declined one would leave zeros.
    let _ = write_script(numbers, &sign.device, &banks, &sign.image, &mut buffer);
    buffer
}
