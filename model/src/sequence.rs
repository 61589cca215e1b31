//! The sequence word: T, C, validity, comparison and the new sequence quad.

use crate::geometry::{Bank, ALL_ONES};

/// "Its low 16 bits are T".
pub fn low_half(word: u32) -> u16 {
    (word & 0xFFFF) as u16
}

/// "its high 16 bits C".
pub fn high_half(word: u32) -> u16 {
    (word >> 16) as u16
}

/// "valid when C is the bitwise complement of T".
pub fn valid(word: u32) -> bool {
    high_half(word) == !low_half(word)
}

/// W-205: "higher, equal, only one valid, none valid".
#[derive(Clone, Copy, Debug, PartialEq, Eq)]
pub enum Reason {
    Higher = 0,
    Equal = 1,
    OnlyOneValid = 2,
    NoneValid = 3,
}

impl Reason {
    pub fn number(self) -> u32 {
        self as u32
    }
}

/// The bank that a reset puts on the lower alias, and why.
#[derive(Clone, Copy, Debug, PartialEq, Eq)]
pub struct Comparison {
    pub bank: Bank,
    pub reason: Reason,
}

pub fn compare(word_one: u32, word_two: u32) -> Comparison {
    let (bank, reason) = match (valid(word_one), valid(word_two)) {
        // "higher T goes lower; equal T, bank 1"
        (true, true) if low_half(word_two) > low_half(word_one) => (Bank::Two, Reason::Higher),
        (true, true) if low_half(word_two) < low_half(word_one) => (Bank::One, Reason::Higher),
        (true, true) => (Bank::One, Reason::Equal),
        (true, false) => (Bank::One, Reason::OnlyOneValid),
        (false, true) => (Bank::Two, Reason::OnlyOneValid),
        (false, false) => (Bank::One, Reason::NoneValid),
    };
    Comparison { bank, reason }
}

/// The valid sequence word of a T.
pub fn word_of(low: u16) -> u32 {
    (u32::from(!low) << 16) | u32::from(low)
}

/// "T = t+1 (modulo 65,536), its complement, then three words of all ones".
pub fn new_quad(low: u16) -> [u32; 4] {
    [word_of(low.wrapping_add(1)), ALL_ONES, ALL_ONES, ALL_ONES]
}

/// "no bit position at 1 in both halves".
pub fn halves_disjoint(word: u32) -> bool {
    low_half(word) & high_half(word) == 0
}
