//! Decline 19: the list, K, the last served, the queue and the banks of a row.

use std::fmt;

use super::Culprit;
use crate::{Bank, SignRecord, Standing, Supply, MOST_SIGNS};

/// A bank of a row in the store.
#[derive(Clone, Copy, Debug, PartialEq, Eq, Hash)]
pub struct RowBank {
    /// The index in the list of its sign.
    pub sign: usize,
    /// Which of the sign's banks.
    pub bank: Bank,
    /// The index in the store of its first word.
    pub start: u32,
    /// Its words.
    pub words: usize,
}

/// A clause of decline 19. Of the queue's entries and of the banks it is the first that is wrong, in record order, bank 1 before bank 2.
#[derive(Clone, Copy, Debug, PartialEq, Eq, Hash)]
pub enum RowClause {
    /// The list has not 1 to 32 signs.
    Signs(usize),
    /// K is not 1 to 32.
    K(u32),
    /// The last served is no index of the list.
    Last {
        /// The last served.
        last: u32,
        /// How many signs there are.
        signs: usize,
    },
    /// The queue has more than 32 entries.
    Count(u32),
    /// An entry of the queue oversteps the list.
    Overstep {
        /// The entry's place in the queue, from 0.
        entry: usize,
        /// The record number that it is.
        record: u32,
        /// How many signs there are.
        signs: usize,
    },
    /// An entry of the queue repeats an earlier one.
    Repeat {
        /// The earlier entry's place in the queue, from 0.
        first: usize,
        /// The entry's place.
        entry: usize,
        /// The record number that both are.
        record: u32,
    },
    /// A bank overhangs the store.
    Overhang {
        /// The bank.
        bank: RowBank,
        /// The words of the store.
        store: usize,
    },
    /// A bank overlaps an earlier one.
    Overlap {
        /// The earlier one.
        first: RowBank,
        /// The bank.
        bank: RowBank,
    },
}

/// Decline 19, after 1 and 2.
pub(super) fn row_culprit(
    supply: &Supply,
    signs: &[SignRecord],
    standing: &Standing,
    store: &[u32],
) -> Option<Culprit> {
    let words = supply.geometry.bank_words().ok()?;
    let clause = range_clause(signs.len(), supply.k, standing.last)
        .or_else(|| queue_clause(standing, signs.len()))
        .or_else(|| banks_clause(&banks(signs, words), store.len()))?;
    Some(Culprit::Row(clause))
}

fn range_clause(signs: usize, k: u32, last: u32) -> Option<RowClause> {
    if !(1..=MOST_SIGNS).contains(&signs) {
        return Some(RowClause::Signs(signs));
    }
    if !(1..=MOST_SIGNS).contains(&(k as usize)) {
        return Some(RowClause::K(k));
    }
    (last as usize >= signs).then_some(RowClause::Last { last, signs })
}

fn queue_clause(standing: &Standing, signs: usize) -> Option<RowClause> {
    let count = standing.queue.count;
    if count as usize > MOST_SIGNS {
        return Some(RowClause::Count(count));
    }
    let waiting = standing.queue.waiting();
    (0..waiting.len()).find_map(|entry| entry_clause(waiting, entry, signs))
}

fn entry_clause(waiting: &[u32], entry: usize, signs: usize) -> Option<RowClause> {
    let record = waiting[entry];
    if record as usize >= signs {
        return Some(RowClause::Overstep {
            entry,
            record,
            signs,
        });
    }
    let mut earlier = waiting[..entry].iter();
    let first = earlier.position(|other| *other == record)?;
    Some(RowClause::Repeat {
        first,
        entry,
        record,
    })
}

/// The banks of each record, one after another.
fn banks(signs: &[SignRecord], words: usize) -> Vec<RowBank> {
    let of_sign = |(sign, record): (usize, &SignRecord)| {
        [(Bank::One, record.one), (Bank::Two, record.two)].map(|(bank, start)| RowBank {
            sign,
            bank,
            start,
            words,
        })
    };
    signs.iter().enumerate().flat_map(of_sign).collect()
}

fn banks_clause(banks: &[RowBank], store: usize) -> Option<RowClause> {
    banks.iter().enumerate().find_map(|(number, bank)| {
        let bank = *bank;
        if bank.end() > store as u64 {
            return Some(RowClause::Overhang { bank, store });
        }
        let first = banks[..number].iter().find(|first| first.overlaps(&bank))?;
        Some(RowClause::Overlap {
            first: *first,
            bank,
        })
    })
}

impl RowBank {
    /// The index behind its last word.
    fn end(&self) -> u64 {
        u64::from(self.start) + self.words as u64
    }

    fn overlaps(&self, other: &RowBank) -> bool {
        u64::from(self.start) < other.end() && u64::from(other.start) < self.end()
    }
}

impl fmt::Display for RowBank {
    fn fmt(&self, f: &mut fmt::Formatter<'_>) -> fmt::Result {
        let (bank, first, last) = (self.bank.number(), self.start, self.end().saturating_sub(1));
        write!(
            f,
            "bank {bank} of sign {} (words {first} to {last})",
            self.sign
        )
    }
}

impl fmt::Display for RowClause {
    fn fmt(&self, f: &mut fmt::Formatter<'_>) -> fmt::Result {
        match *self {
            RowClause::Signs(signs) => write!(f, "the list has {signs} signs, not 1 to 32"),
            RowClause::K(k) => write!(f, "K is {k}, not 1 to 32"),
            RowClause::Last { last, signs } => {
                f.write_str("the last served")?;
                write_overstep(f, last, signs)
            }
            RowClause::Count(count) => write!(f, "the queue has {count} entries, more than 32"),
            RowClause::Overstep {
                entry,
                record,
                signs,
            } => {
                write!(f, "entry {entry} of the queue")?;
                write_overstep(f, record, signs)
            }
            RowClause::Repeat {
                first,
                entry,
                record,
            } => {
                write!(f, "entries {first} and {entry} of the queue ")?;
                write!(f, "are both sign {record}")
            }
            RowClause::Overhang { bank, store } => {
                write!(f, "{bank} overhangs the store of {store} words")
            }
            RowClause::Overlap { first, bank } => write!(f, "{first} and {bank} overlap"),
        }
    }
}

/// The end of a sentence about a number that is no index of the list.
fn write_overstep(f: &mut fmt::Formatter<'_>, record: u32, signs: usize) -> fmt::Result {
    let last = signs.saturating_sub(1);
    write!(f, " is sign {record}, not 0 to {last}")
}
