//! Byte lanes: sources and targets of lengths that are taken and refused.

use crate::cases::{Call, Case};
use crate::lanes::{lanes_back, lanes_out};
use crate::list::List;
use crate::random::Random;

use super::memory::set_bytes;

/// How seldom a length is refused: once in this many cases.
const SPOILED: u32 = 6;

pub fn lanes_case(random: &mut Random, case: &mut Case) {
    let mut lengths = [length(random); 2];
    if random.one_in(SPOILED) {
        lengths = refused_lengths(random, lengths[0]);
    }
    let source = bytes(random, lengths[0]);
    let mut target = bytes(random, lengths[1]);
    if random.one_in(6) {
        // What is to be written stands there already, or much of it.
        let _ = match case.call {
            Call::LanesOut => lanes_out(&source, &mut target),
            _ => lanes_back(&source, &mut target),
        };
        set_bytes(random, &mut target);
    }
    case.lists = vec![List::from_bytes(&source), List::from_bytes(&target)];
}

/// A multiple of 4, seldom some thousand.
fn length(random: &mut Random) -> u32 {
    4 * match random.below(8) {
        0 => random.below(3),
        1 => random.pick(&[63, 64, 65]),
        2 if random.one_in(4) => random.below(1_025),
        3 | 4 => random.below(65),
        _ => random.below(13),
    }
}

fn refused_lengths(random: &mut Random, length: u32) -> [u32; 2] {
    let near = length + random.between(1, 3);
    match random.below(5) {
        0 => [near, near],
        1 => [length, near],
        2 => [near, length],
        3 => [length, length + 4 * random.between(1, 3)],
        _ => [length + 4, length],
    }
}

/// All distinct as far as bytes can be, all equal, or any.
fn bytes(random: &mut Random, length: u32) -> Vec<u8> {
    let first = random.word() as u8;
    // An odd number comes back to the first byte after 256.
    let between = random.word() as u8 | 1;
    let mut bytes = vec![first; length as usize];
    match random.below(4) {
        0 => {}
        1 => set_bytes(random, &mut bytes),
        2 => bytes.fill_with(|| random.word() as u8),
        _ => {
            for index in 1..bytes.len() {
                bytes[index] = bytes[index - 1].wrapping_add(between);
            }
        }
    }
    bytes
}
