//! The cuts at one place.

use crate::resets::{Kind, Mask};
use crate::sweep_sign::{Runs, Start, State};
use crate::sweep_tally::{Fault, Tally};

/// How the supply is cut at each place: by each kind with each mask.
#[derive(Clone, Debug, PartialEq, Eq)]
pub struct Cuts {
    pub masks: Vec<Mask>,
    pub kinds: Vec<Kind>,
}

impl Cuts {
    /// How many cuts there are at a place.
    pub fn count(&self) -> usize {
        self.kinds.len() * self.masks.len()
    }

    /// Cuts a state, each time on the copy, until one has a wrong outcome.
    pub fn at(&self, start: &Start, state: &State, copy: &mut State) -> Tally {
        let mut tally = Tally::default();
        for (kind, mask) in self.all() {
            copy.copy(state);
            match copy.cut(start, kind, mask) {
                Ok(Runs::Old) => tally.old += 1,
                Ok(Runs::New) => tally.new += 1,
                Err(wrong) => {
                    tally.fault = Some(Fault {
                        place: state.place,
                        kind,
                        mask,
                        ran: wrong.to_string(),
                    });
                    return tally;
                }
            }
        }
        tally.places = 1;
        tally
    }

    fn all(&self) -> impl Iterator<Item = (Kind, Mask)> + '_ {
        let kinds = self.kinds.iter().copied();
        kinds.flat_map(|kind| self.masks.iter().map(move |mask| (kind, *mask)))
    }
}
