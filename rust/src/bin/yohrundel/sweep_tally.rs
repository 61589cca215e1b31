//! What the cuts of a sweep came to.

use std::fmt::{self, Display, Formatter};

use crate::resets::{mask_text, Kind, Mask};

/// What cuts came to.
#[derive(Clone, Debug, Default, PartialEq, Eq)]
pub struct Tally {
    pub places: u32,
    /// After how many cuts the sign ran the old bank, and the same update was accepted again.
    pub old: u64,
    /// After how many it ran exactly the new bank.
    pub new: u64,
    /// The cut with another outcome that was found first. It ends the sweep.
    pub fault: Option<Fault>,
}

/// A cut with a wrong outcome.
#[derive(Clone, Debug, PartialEq, Eq)]
pub struct Fault {
    pub place: u32,
    pub kind: Kind,
    pub mask: Mask,
    /// What ran.
    pub ran: String,
}

impl Tally {
    /// All cuts, but for one with a wrong outcome.
    pub fn cuts(&self) -> u64 {
        self.old.saturating_add(self.new)
    }

    /// Adds another one; the fault is the first of both.
    pub fn add(&mut self, other: Tally) {
        self.places = self.places.saturating_add(other.places);
        self.old = self.old.saturating_add(other.old);
        self.new = self.new.saturating_add(other.new);
        self.fault = self.fault.take().or(other.fault);
    }
}

impl Display for Fault {
    fn fmt(&self, to: &mut Formatter) -> fmt::Result {
        let (place, kind, mask, ran) =
            (self.place, self.kind.name, mask_text(self.mask), &self.ran);
        write!(to, "place {place}, {kind}, mask {mask}: {ran}")
    }
}
