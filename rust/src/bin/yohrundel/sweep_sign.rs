//! A sign whose update is cut: what it starts from, what it is at a place, and the outcome of a cut.

use std::fmt::{self, Display, Formatter};

use yohrundel::{reset, start_up, turn_lent, update_start, Bank, Decline, Device, Geometry};

use crate::resets::{Kind, Mask};
use crate::sign::Sign;

/// A sign before its update, which is accepted.
pub struct Start {
    pub geometry: Geometry,
    device: Device,
    banks: [Vec<u32>; 2],
    image: Vec<u32>,
    /// The bank that runs.
    old: Bank,
    /// What the other bank must come to: the image with the new sequence quad.
    new: Vec<u32>,
    /// The update's actions.
    pub total: u32,
}

/// A sign at a place of its update.
#[derive(Clone)]
pub struct State {
    device: Device,
    banks: [Vec<u32>; 2],
    pub place: u32,
}

/// The right outcomes of a cut.
#[derive(Clone, Copy, Debug, PartialEq, Eq)]
pub enum Runs {
    /// The old bank, with every word, and the same update is accepted again.
    Old,
    /// Exactly the new bank, and the old one kept every word.
    New,
}

/// Any other outcome. It is printed as what ran.
#[derive(Clone, Copy, Debug, PartialEq, Eq)]
pub enum Wrong {
    NoBankRuns,
    OldChanged,
    NotAccepted(Decline),
    NotNew,
    OldNotKept,
    Declined(Decline),
}

impl Start {
    /// A sign with the image of its update.
    pub fn of(sign: Sign, image: Vec<u32>) -> Result<Start, Decline> {
        let (geometry, device, [one, two]) = (sign.geometry, sign.device, &sign.banks);
        let total = update_start(geometry, device, one, two, &image)?.total;
        let old = device.running_bank().ok_or(Decline::Sequence)?;
        Ok(Start {
            geometry,
            device,
            banks: sign.banks.clone(),
            image,
            old,
            new: sign.new,
            total,
        })
    }

    /// The sign at place 0.
    pub fn state(&self) -> State {
        State {
            device: self.device,
            banks: self.banks.clone(),
            place: 0,
        }
    }
}

impl State {
    /// Turns up to a place, which is at most the total.
    pub fn turn_until(&mut self, start: &Start, place: u32) -> Result<(), Decline> {
        let [one, two] = &mut self.banks;
        let (geometry, device, image) = (start.geometry, &mut self.device, &start.image);
        while self.place < place {
            let turned = turn_lent(geometry, device, one, two, image, &[], self.place)?;
            self.place = turned.place;
        }
        Ok(())
    }

    /// Becomes a copy of another state of the same sign, in the memory that it has.
    pub fn copy(&mut self, other: &State) {
        self.banks.clone_from(&other.banks);
        (self.device, self.place) = (other.device, other.place);
    }

    /// The supply fails: a reset and a start-up.
    pub fn cut(&mut self, start: &Start, kind: Kind, mask: Mask) -> Result<Runs, Wrong> {
        self.restart(start.geometry, kind, mask)
            .map_err(Wrong::Declined)?;
        self.outcome(start)
    }

    fn restart(&mut self, geometry: Geometry, kind: Kind, mask: Mask) -> Result<(), Decline> {
        let [one, two] = &mut self.banks;
        let after = reset(geometry, self.device, one, two, &[], kind.number, mask)?;
        self.device = start_up(geometry, after.device)?;
        Ok(())
    }

    /// What runs after a reset and start-up.
    fn outcome(&self, start: &Start) -> Result<Runs, Wrong> {
        let old = start.old.number() as usize - 1;
        let is_kept = self.banks[old] == start.banks[old];
        match self.device.running_bank() {
            None => Err(Wrong::NoBankRuns),
            Some(bank) if bank == start.old && is_kept => match self.start_again(start) {
                Ok(()) => Ok(Runs::Old),
                Err(decline) => Err(Wrong::NotAccepted(decline)),
            },
            Some(bank) if bank == start.old => Err(Wrong::OldChanged),
            Some(_) if self.banks[1 - old] != start.new => Err(Wrong::NotNew),
            Some(_) if !is_kept => Err(Wrong::OldNotKept),
            Some(_) => Ok(Runs::New),
        }
    }

    /// Whether the same update is accepted.
    fn start_again(&self, start: &Start) -> Result<(), Decline> {
        let [one, two] = &self.banks;
        update_start(start.geometry, self.device, one, two, &start.image)?;
        Ok(())
    }
}

impl Display for Wrong {
    fn fmt(&self, to: &mut Formatter) -> fmt::Result {
        let again = "the old bank runs, but the same update is";
        match self {
            Wrong::NoBankRuns => to.write_str("no bank runs"),
            Wrong::OldChanged => to.write_str("the old bank runs, but not with every word"),
            Wrong::NotAccepted(decline) => write!(to, "{again} {decline}"),
            Wrong::NotNew => to.write_str("the other bank runs, but is not exactly the new one"),
            Wrong::OldNotKept => {
                to.write_str("exactly the new bank runs, but the old one lost words")
            }
            Wrong::Declined(decline) => {
                write!(to, "the reset or the start-up is {decline}")
            }
        }
    }
}

#[cfg(test)]
mod tests {
    use yohrundel::nvmcon::PFSWAP;

    use super::*;
    use crate::resets::KINDS;
    use crate::sign::made_up_image;

    fn start() -> Start {
        let geometry = Geometry { q: 1, b: 2, p: 1 };
        let image = made_up_image(geometry).expect("a sign");
        let sign = Sign::fresh(geometry, image.clone()).expect("a sign");
        Start::of(sign, image).expect("it is accepted")
    }

    /// The state at a place after a reset and start-up.
    fn restarted(start: &Start, place: u32) -> State {
        let mut state = start.state();
        state.turn_until(start, place).expect("turns");
        let [power_on, ..] = KINDS;
        let restarted = state.restart(start.geometry, power_on, [0; 4]);
        restarted.expect("a reset and a start-up");
        state
    }

    #[test]
    fn right_outcomes() {
        let start = start();
        assert_eq!(restarted(&start, 0).outcome(&start), Ok(Runs::Old));
        assert_eq!(
            restarted(&start, start.total).outcome(&start),
            Ok(Runs::New)
        );
    }

    /// A word of the old bank, wherever it stands.
    #[test]
    fn old_bank_that_is_not_whole() {
        let start = start();
        let states = [0, 100, start.total].map(|place| restarted(&start, place));
        let wrong = [Wrong::OldChanged, Wrong::OldChanged, Wrong::OldNotKept];
        for (mut state, wrong) in states.into_iter().zip(wrong) {
            for word in [0, 31, 60, 63, 95] {
                state.banks[0][word] ^= 0x0100_0000;
                assert_eq!(state.outcome(&start), Err(wrong));
                state.banks[0][word] ^= 0x0100_0000;
            }
            assert!(state.outcome(&start).is_ok());
        }
    }

    /// A word of the new bank where it runs, the sequence quad among them; it is of no matter where the old one runs.
    #[test]
    fn new_bank_that_is_not_exact() {
        let start = start();
        let mut state = restarted(&start, start.total);
        for word in [0, 59, 60, 61, 63, 64, 95] {
            state.banks[1][word] ^= 1;
            assert_eq!(state.outcome(&start), Err(Wrong::NotNew));
            state.banks[1][word] ^= 1;
        }
        let mut state = restarted(&start, 0);
        state.banks[1][0] ^= 1;
        assert_eq!(state.outcome(&start), Ok(Runs::Old));
    }

    #[test]
    fn no_bank_runs() {
        let start = start();
        let mut state = restarted(&start, 0);
        state.device.nvmcon ^= PFSWAP;
        assert_eq!(state.outcome(&start), Err(Wrong::NoBankRuns));
    }

    /// "Other bank's sequence word 0x00000000: 10."
    #[test]
    fn update_that_is_not_accepted_again() {
        let start = start();
        let mut state = restarted(&start, 0);
        state.banks[1][60] = 0;
        let wrong = Wrong::NotAccepted(Decline::Sequence);
        assert_eq!(state.outcome(&start), Err(wrong));
    }

    #[test]
    fn reset_that_is_declined() {
        let start = start();
        let mut state = start.state();
        state.device.nvmkey = 1;
        let [power_on, ..] = KINDS;
        let outcome = state.cut(&start, power_on, [0; 4]);
        assert_eq!(outcome, Err(Wrong::Declined(Decline::Device)));
    }
}
