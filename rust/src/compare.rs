//! Which bank goes lower, and why.

use std::fmt;

use crate::{ffi, Bank};

/// Why a reset puts a bank on the lower alias. A sequence word is valid where its halves add up to 65,535; its low half is its number.
#[derive(Clone, Copy, Debug, PartialEq, Eq, Hash)]
#[non_exhaustive]
pub enum Reason {
    /// Both banks have a valid sequence word, and the one with the higher number goes lower.
    Higher = 0,
    /// Both have one with the same number, and bank 1 goes lower.
    Equal = 1,
    /// Only the bank that goes lower has a valid one.
    OnlyOneValid = 2,
    /// No bank has a valid one, and bank 1 goes lower.
    NoneValid = 3,
}

impl Reason {
    /// All of them, in the order of their numbers.
    pub const ALL: &[Reason] = &[
        Reason::Higher,
        Reason::Equal,
        Reason::OnlyOneValid,
        Reason::NoneValid,
    ];

    /// Its number, 0 to 3.
    pub fn number(self) -> u32 {
        self as u32
    }

    /// The reason of a comparison that was made.
    pub(crate) fn of(number: u32) -> Reason {
        Reason::ALL[number as usize]
    }
}

/// As the rest of a sentence: "bank 1 runs: no bank has a valid sequence word".
impl fmt::Display for Reason {
    fn fmt(&self, formatter: &mut fmt::Formatter<'_>) -> fmt::Result {
        formatter.write_str(match self {
            Reason::Higher => "its sequence number is the higher one",
            Reason::Equal => "both banks have the same sequence number",
            Reason::OnlyOneValid => "the other bank has no valid sequence word",
            Reason::NoneValid => "no bank has a valid sequence word",
        })
    }
}

/// What a comparison gives.
#[derive(Clone, Copy, Debug, PartialEq, Eq, Hash)]
pub struct Compared {
    /// The bank that goes lower.
    pub bank: Bank,
    /// Why it does.
    pub reason: Reason,
}

/// The bank that a reset would put lower by the sequence words of bank 1 and bank 2, and why.
///
/// What runs is what the last reset chose: after a finished update and before its reset this names the other bank.
///
/// ```
/// use yohrundel::{compare, Bank, Reason};
///
/// let compared = compare(0xFFFE_0001, 0xFFFD_0002);
/// assert_eq!((compared.bank, compared.reason), (Bank::Two, Reason::Higher));
/// let compared = compare(!0, !0);
/// assert_eq!((compared.bank, compared.reason), (Bank::One, Reason::NoneValid));
/// ```
pub fn compare(first: u32, other: u32) -> Compared {
    let answer = ffi::compare(first, other);
    Compared {
        bank: if answer.bank == 2 {
            Bank::Two
        } else {
            Bank::One
        },
        reason: Reason::of(answer.reason),
    }
}
