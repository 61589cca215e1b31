//! Byte lanes: lengths on both sides of decline 22, each byte's way, and what the target held.

use crate::cases::Case;
use crate::lanes::{lanes_back, lanes_out};

use super::parts::*;

pub fn cases() -> Vec<Case> {
    let mut cases = Vec::new();
    for length in (0..=20).chain([
        252, 253, 254, 255, 256, 257, 260, 508, 512, 516, 1_020, 1_024, 1_028, 1_540,
    ]) {
        cases.extend(lanes(&distinct(length), &vec![0; length]));
    }
    unequal(&mut cases);
    for length in [4, 8, 12, 20] {
        single_bytes(length, &mut cases);
    }
    for length in [0, 4, 8, 36, 256] {
        targets(length, &mut cases);
    }
    sparse(&mut cases);
    cases
}

/// Bytes that all differ, from 1 on; further blocks of 256 begin with other ones.
fn distinct(length: usize) -> Vec<u8> {
    (0..length)
        .map(|index| (index + 1 + index / 256) as u8)
        .collect()
}

/// Lengths that differ, of which both, one or none are a multiple of 4.
fn unequal(cases: &mut Vec<Case>) {
    for length in [0, 4, 8, 64, 256] {
        for more in [1, 2, 3, 4, 5, 8, 12] {
            cases.extend(lanes(&distinct(length), &distinct(length + more)));
            cases.extend(lanes(&distinct(length + more), &distinct(length)));
        }
    }
    for (one, two) in [(1, 2), (2, 6), (3, 7), (7, 5), (4, 16), (2, 8)] {
        cases.extend(lanes(&distinct(one), &distinct(two)));
        cases.extend(lanes(&distinct(two), &distinct(one)));
    }
}

/// One byte that isn't 0, at each index.
fn single_bytes(length: usize, cases: &mut Vec<Case>) {
    for index in 0..length {
        let mut source = vec![0; length];
        source[index] = 255;
        cases.extend(lanes(&source, &vec![0; length]));
    }
}

/// Targets that hold the source, other bytes, what is to be written, or that but for one byte.
fn targets(length: usize, cases: &mut Vec<Case>) {
    let source = distinct(length);
    cases.extend(lanes(&source, &source));
    cases.extend(lanes(&source, &vec![255; length]));
    cases.extend(lanes(&vec![7; length], &source));
    cases.extend(lanes(&vec![7; length], &vec![7; length]));
    for way in [lanes_out, lanes_back] {
        let mut target = source.clone();
        // The lengths are equal and a multiple of 4.
        let _ = way(&source, &mut target);
        cases.extend(lanes(&source, &target));
        if let Some(last) = target.last_mut() {
            *last ^= 1;
            cases.extend(lanes(&source, &target));
        }
    }
}

/// Some thousand bytes, of which only the first and last of each lane and of some words differ from the target's.
fn sparse(cases: &mut Vec<Case>) {
    for length in [2_048, 4_092, 8_192, 8_196] {
        let lane = length / 4;
        let mut source = vec![0; length];
        for index in 0..4 {
            source[index * lane] = 1 + index as u8;
            source[index * lane + lane - 1] = 11 + index as u8;
            source[4 + index] = 21 + index as u8;
        }
        cases.extend(lanes(&source, &vec![0; length]));
    }
}
