//! Declines 1, 2 and 22: sizes of a sign, and lengths of what is lent.

use std::fmt;

use super::Culprit;
use crate::Geometry;

/// The most words of SRAM.
const MOST_SRAM: usize = 16_384;

/// A clause of decline 1: the first size that is outside its list or range, with its value.
#[derive(Clone, Copy, Debug, PartialEq, Eq, Hash)]
pub enum SizeClause {
    /// Q is not one of [`Geometry::ROW_QUADS`].
    Q(u32),
    /// B is not 1 to [`Geometry::MOST_BOOT_PAGES`].
    B(u32),
    /// P is not 1 to [`Geometry::MOST_PROGRAM_PAGES`].
    P(u32),
}

/// The first size that is outside its list or range.
pub fn size_clause(geometry: Geometry) -> Option<SizeClause> {
    let Geometry { q, b, p } = geometry;
    if !Geometry::ROW_QUADS.contains(&q) {
        return Some(SizeClause::Q(q));
    }
    if !(1..=Geometry::MOST_BOOT_PAGES).contains(&b) {
        return Some(SizeClause::B(b));
    }
    (!(1..=Geometry::MOST_PROGRAM_PAGES).contains(&p)).then_some(SizeClause::P(p))
}

impl fmt::Display for SizeClause {
    fn fmt(&self, f: &mut fmt::Formatter<'_>) -> fmt::Result {
        match self {
            SizeClause::Q(q) => write!(f, "Q is {q}, not 1, 2, 4, 8, 16, 32, 64 or 128"),
            SizeClause::B(b) => write!(f, "B is {b}, not 1 to {}", Geometry::MOST_BOOT_PAGES),
            SizeClause::P(p) => {
                write!(f, "P is {p}, not 1 to {}", Geometry::MOST_PROGRAM_PAGES)
            }
        }
    }
}

/// What is lent and must be one bank long.
#[derive(Clone, Copy, Debug, PartialEq, Eq, Hash)]
pub enum Memory {
    /// Bank 1.
    BankOne,
    /// Bank 2.
    BankTwo,
    /// The one bank of a page request.
    Bank,
    /// The image.
    Image,
    /// The image that another is compared with.
    OtherImage,
    /// The first scratch bank.
    ScratchOne,
    /// The second scratch bank.
    ScratchTwo,
}

impl fmt::Display for Memory {
    fn fmt(&self, f: &mut fmt::Formatter<'_>) -> fmt::Result {
        f.write_str(match self {
            Memory::BankOne => "bank 1",
            Memory::BankTwo => "bank 2",
            Memory::Bank => "the bank",
            Memory::Image => "the image",
            Memory::OtherImage => "the other image",
            Memory::ScratchOne => "scratch bank 1",
            Memory::ScratchTwo => "scratch bank 2",
        })
    }
}

/// A clause of decline 2: the first lent memory of a wrong length.
#[derive(Clone, Copy, Debug, PartialEq, Eq, Hash)]
pub enum LengthClause {
    /// A bank or an image that is not one bank long.
    Bank {
        /// Which one.
        memory: Memory,
        /// Its words.
        words: usize,
        /// The words of a bank: N×32×Q.
        asked: usize,
    },
    /// An SRAM of more than 16,384 words.
    Sram {
        /// Its words.
        words: usize,
    },
    /// A result that is not as long as its script.
    Result {
        /// Its bytes.
        bytes: usize,
        /// The bytes of the script.
        asked: usize,
    },
}

impl fmt::Display for LengthClause {
    fn fmt(&self, f: &mut fmt::Formatter<'_>) -> fmt::Result {
        match self {
            LengthClause::Bank {
                memory,
                words,
                asked,
            } => write!(f, "{memory} has {words} words, not {asked}"),
            LengthClause::Sram { words } => {
                write!(f, "the SRAM has {words} words, more than {MOST_SRAM}")
            }
            LengthClause::Result { bytes, asked } => {
                write!(f, "the result has {bytes} bytes, the script {asked}")
            }
        }
    }
}

/// Declines 1 and 2.
pub(super) fn lent(
    geometry: Geometry,
    banks: &[(Memory, &[u32])],
    sram: &[u32],
) -> Option<Culprit> {
    if let Some(clause) = size_clause(geometry) {
        return Some(Culprit::Geometry(clause));
    }
    let clause = bank_length(geometry, banks).or_else(|| sram_length(sram))?;
    Some(Culprit::Length(clause))
}

fn bank_length(geometry: Geometry, banks: &[(Memory, &[u32])]) -> Option<LengthClause> {
    let asked = geometry.bank_words().ok()?;
    let (memory, words) = banks.iter().find(|(_, words)| words.len() != asked)?;
    Some(LengthClause::Bank {
        memory: *memory,
        words: words.len(),
        asked,
    })
}

fn sram_length(sram: &[u32]) -> Option<LengthClause> {
    let words = sram.len();
    (words > MOST_SRAM).then_some(LengthClause::Sram { words })
}

/// Decline 2 for a result.
pub(super) fn result_length(script: &[u8], result: &[u8]) -> Option<Culprit> {
    let (bytes, asked) = (result.len(), script.len());
    (bytes != asked).then_some(Culprit::Length(LengthClause::Result { bytes, asked }))
}

/// Decline 22.
pub(super) fn lane_lengths(source: usize, target: usize) -> Option<Culprit> {
    let wrong = source != target || !source.is_multiple_of(4);
    wrong.then_some(Culprit::Lanes { source, target })
}

/// What [`lane_lengths`] finds.
pub(super) fn write_lanes(f: &mut fmt::Formatter<'_>, source: usize, target: usize) -> fmt::Result {
    if source == target {
        return write!(f, "both have {source} bytes");
    }
    write!(f, "the source has {source} bytes, the target {target}")
}
