//! The comparison's reason: pairs of sequence words, valid and one bit off. Resets with such words are among the base's cases.

use crate::cases::{Call, Case};
use crate::geometry::ALL_ONES;
use crate::sequence::word_of;

/// Valid words around each other and at the ends, each then with one bit changed, and words that are never valid.
fn words() -> Vec<u32> {
    let valid = [0, 1, 2, 0x7FFF, 0x8000, 0xFFFE, 0xFFFF].map(word_of);
    let near = [1, 1 << 15, 1 << 16, 1 << 31].map(|bit| word_of(1) ^ bit);
    [&valid[..], &near, &[0, ALL_ONES, 0x0001_0001]].concat()
}

pub fn cases() -> Vec<Case> {
    let words = words();
    let mut cases = Vec::new();
    for first in &words {
        for other in &words {
            let mut case = Case::new(Call::CompareReason);
            case.numbers = vec![*first, *other];
            cases.push(case);
        }
    }
    cases
}
