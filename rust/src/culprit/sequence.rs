//! Declines 10 and 11 of an update start: the sequence words and the mapping.

use std::fmt;

use super::Culprit;
use crate::nvmcon::{BFSWAP, PFSWAP};
use crate::{compare, Bank, Device, Geometry, Reason};

/// The last T, and what the halves of a valid word add up to.
const LAST: u32 = 65_535;

/// A clause of decline 10, in the order of the paper's sentence, with the words that show it.
#[derive(Clone, Copy, Debug, PartialEq, Eq, Hash)]
pub enum SequenceClause {
    /// "the lower-alias bank's sequence is invalid": its halves do not add up to 65,535.
    LowerInvalid {
        /// The bank on the lower alias.
        bank: Bank,
        /// Its sequence word.
        word: u32,
    },
    /// "a reset would choose the other bank".
    OtherChosen {
        /// The bank that it would choose, which is not on the lower alias.
        bank: Bank,
        /// Why: the other bank's T is the higher one, or both are equal and bank 2 is on the lower alias.
        reason: Reason,
        /// The sequence words of bank 1 and bank 2.
        words: [u32; 2],
    },
    /// "PFSWAP differs from BFSWAP".
    SwapsDiffer {
        /// What NVMCON holds.
        nvmcon: u32,
    },
    /// "the other bank's sequence word is invalid with no bit position at 1 in both halves (a torn erase could make it valid)".
    OtherDisjoint {
        /// The other bank.
        bank: Bank,
        /// Its sequence word.
        word: u32,
    },
}

/// The first clause of decline 10 that applies to a device and banks, whatever lower decline there is beside it.
///
/// None where none applies, and where the sizes or the lengths of the banks are wrong, so that there are no sequence words.
pub fn sequence_clause(
    geometry: Geometry,
    device: &Device,
    one: &[u32],
    two: &[u32],
) -> Option<SequenceClause> {
    let words = sequence_words(geometry, one, two)?;
    let nvmcon = device.nvmcon;
    let (lower, other) = lower_and_other(device);
    let (bank, word) = (lower, word_of(lower, words));
    if !is_valid(word) {
        return Some(SequenceClause::LowerInvalid { bank, word });
    }
    let [first, second] = words;
    let chosen = compare(first, second);
    if chosen.bank != lower {
        return Some(SequenceClause::OtherChosen {
            bank: chosen.bank,
            reason: chosen.reason,
            words,
        });
    }
    if (nvmcon & PFSWAP != 0) != (nvmcon & BFSWAP != 0) {
        return Some(SequenceClause::SwapsDiffer { nvmcon });
    }
    let (bank, word) = (other, word_of(other, words));
    let disjoint = !is_valid(word) && low_half(word) & high_half(word) == 0;
    disjoint.then_some(SequenceClause::OtherDisjoint { bank, word })
}

/// The sequence words of banks that have their length.
fn sequence_words(geometry: Geometry, one: &[u32], two: &[u32]) -> Option<[u32; 2]> {
    let (length, index) = (geometry.bank_words().ok()?, geometry.sequence_index().ok()?);
    let lent = one.len() == length && two.len() == length;
    lent.then(|| [one[index], two[index]])
}

/// The bank that BFSWAP puts on the lower alias, and the other.
fn lower_and_other(device: &Device) -> (Bank, Bank) {
    if device.nvmcon & BFSWAP == 0 {
        (Bank::One, Bank::Two)
    } else {
        (Bank::Two, Bank::One)
    }
}

fn word_of(bank: Bank, [one, two]: [u32; 2]) -> u32 {
    match bank {
        Bank::One => one,
        Bank::Two => two,
    }
}

fn low_half(word: u32) -> u32 {
    word & 0xFFFF
}

fn high_half(word: u32) -> u32 {
    word >> 16
}

/// W-208: "the two halves add up to 65,535".
fn is_valid(word: u32) -> bool {
    low_half(word) + high_half(word) == LAST
}

/// Declines 10 and 11, after the lower ones.
pub(super) fn sequence_culprit(
    geometry: Geometry,
    device: &Device,
    one: &[u32],
    two: &[u32],
) -> Option<Culprit> {
    if let Some(clause) = sequence_clause(geometry, device, one, two) {
        return Some(Culprit::Sequence(clause));
    }
    let (bank, _) = lower_and_other(device);
    let word = word_of(bank, sequence_words(geometry, one, two)?);
    (low_half(word) == LAST).then_some(Culprit::LastSequence { bank, word })
}

impl fmt::Display for SequenceClause {
    fn fmt(&self, f: &mut fmt::Formatter<'_>) -> fmt::Result {
        match *self {
            SequenceClause::LowerInvalid { bank, word } => {
                let bank = bank.number();
                write!(
                    f,
                    "bank {bank}, on the lower alias, has no valid sequence word: 0x{word:08X}"
                )
            }
            SequenceClause::OtherChosen {
                bank,
                reason,
                words: [one, two],
            } => {
                let bank = bank.number();
                write!(f, "a reset would choose bank {bank}, as {reason}: ")?;
                write!(f, "bank 1 has 0x{one:08X}, bank 2 0x{two:08X}")
            }
            SequenceClause::SwapsDiffer { nvmcon } => {
                let [pfswap, bfswap] = [PFSWAP, BFSWAP].map(|bit| u32::from(nvmcon & bit != 0));
                write!(
                    f,
                    "NVMCON is 0x{nvmcon:08X}: PFSWAP = {pfswap} and BFSWAP = {bfswap}"
                )
            }
            SequenceClause::OtherDisjoint { bank, word } => {
                let bank = bank.number();
                write!(
                    f,
                    "a torn erase could make bank {bank}'s sequence word valid: "
                )?;
                write!(f, "no bit position is 1 in both halves of 0x{word:08X}")
            }
        }
    }
}

/// Decline 11.
pub(super) fn write_last(f: &mut fmt::Formatter<'_>, bank: Bank, word: u32) -> fmt::Result {
    let (bank, number) = (bank.number(), low_half(word));
    write!(
        f,
        "T is {number}: bank {bank} has the sequence word 0x{word:08X}"
    )
}
