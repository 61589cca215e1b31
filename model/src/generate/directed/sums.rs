//! The validity of a sequence word: valid words, all their neighbours by a bit, and sums on both sides of 65,535.

use crate::cases::{Call, Case};
use crate::sequence::word_of;

/// T's at the ends, in the middle and between.
const LOW_HALVES: [u16; 9] = [0, 1, 2, 0x5A5A, 0x7FFF, 0x8000, 0xFF00, 0xFFFE, 0xFFFF];

pub fn cases() -> Vec<Case> {
    let mut cases = Vec::new();
    for low in LOW_HALVES {
        let word = word_of(low);
        cases.push(valid_by_sum(word));
        cases.extend((0..32).map(|bit| valid_by_sum(word ^ (1 << bit))));
        for other in LOW_HALVES {
            // The high half of one word over the low half of another.
            cases.push(valid_by_sum((word & 0xFFFF_0000) | u32::from(other)));
        }
        for sum in [65_534, 65_536, 65_535 / 2, 131_070] {
            cases.extend(with_sum(low, sum));
        }
        cases.push(valid_by_sum(u32::from(low) << 16 | u32::from(low)));
    }
    cases
}

/// The word with this low half whose halves have this sum.
fn with_sum(low: u16, sum: u32) -> Option<Case> {
    let high = u16::try_from(sum.checked_sub(u32::from(low))?).ok()?;
    Some(valid_by_sum(u32::from(high) << 16 | u32::from(low)))
}

fn valid_by_sum(word: u32) -> Case {
    let mut case = Case::new(Call::ValidBySum);
    case.numbers = vec![word];
    case
}
