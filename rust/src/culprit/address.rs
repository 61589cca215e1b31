//! Decline 8: addresses and pages.

use std::fmt;

use super::windows::{is_in, windows, Windows};
use super::Culprit;
use crate::Geometry;

/// A clause of decline 8.
#[derive(Clone, Copy, Debug, PartialEq, Eq, Hash)]
pub enum AddressClause {
    /// "A flash read outside the four windows".
    Outside {
        /// The address.
        address: u32,
        /// The first and the last byte of both program regions, which adjoin, and of the lower and the upper boot alias.
        windows: [[u32; 2]; 3],
    },
    /// A flash read "not on a multiple of 4".
    NoMultiple {
        /// The address.
        address: u32,
    },
    /// "a page request with a page number of N or more".
    Page {
        /// The page number.
        page: u32,
        /// N.
        pages: usize,
    },
}

/// Decline 8 of a flash read, for sizes that are in range.
pub(super) fn address_culprit(geometry: Geometry, address: u32) -> Option<Culprit> {
    let windows = windows(geometry);
    let clause = if !is_in(&windows, address) {
        AddressClause::Outside { address, windows }
    } else if !address.is_multiple_of(4) {
        AddressClause::NoMultiple { address }
    } else {
        return None;
    };
    Some(Culprit::Address(clause))
}

/// Decline 8 of a page request.
pub(super) fn page_culprit(geometry: Geometry, page: u32) -> Option<Culprit> {
    let pages = geometry.pages().ok()?;
    let past = page as usize >= pages;
    past.then_some(Culprit::Address(AddressClause::Page { page, pages }))
}

impl fmt::Display for AddressClause {
    fn fmt(&self, f: &mut fmt::Formatter<'_>) -> fmt::Result {
        match self {
            AddressClause::Outside { address, windows } => write_outside(f, *address, windows),
            AddressClause::NoMultiple { address } => {
                write!(f, "0x{address:08X} is no multiple of 4")
            }
            AddressClause::Page { page, pages } => {
                write!(
                    f,
                    "the page is {page}, not 0 to {}",
                    pages.saturating_sub(1)
                )
            }
        }
    }
}

fn write_outside(f: &mut fmt::Formatter<'_>, address: u32, windows: &Windows) -> fmt::Result {
    let [program, lower, upper] =
        windows.map(|[first, last]| format!("0x{first:08X} to 0x{last:08X}"));
    write!(f, "0x{address:08X} is not in {program}, {lower} or {upper}")
}
