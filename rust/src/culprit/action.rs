//! What an update does at a place, as far as declines 5 and 6 depend on it.

use crate::register::{NVMADDR, NVMBWP, NVMCON, NVMKEY};
use crate::Geometry;

/// An action of the update.
#[derive(Clone, Copy, Debug, PartialEq, Eq)]
pub enum Action {
    /// A store to the register of this number.
    Store(u32),
    Step,
}

/// The registers of "NVMCON plain .., set 0x4000, keys, set 0x8000".
const LAUNCH: [u32; 6] = [NVMCON, NVMCON, NVMKEY, NVMKEY, NVMKEY, NVMCON];

/// The registers of part 1: "NVMCON clear 0x4000", a launch, "clear 0x4000; three keys; NVMBWP clear 0x1F".
const OPENING: [u32; 12] = [
    NVMCON, NVMCON, NVMCON, NVMKEY, NVMKEY, NVMKEY, NVMCON, NVMCON, NVMKEY, NVMKEY, NVMKEY, NVMBWP,
];

/// The action at a place below the total, for sizes that are in range.
pub fn action(geometry: Geometry, place: u32) -> Action {
    let opening = OPENING.len() as u32;
    if place < opening {
        return Action::Store(OPENING[place as usize]);
    }
    let place = place - opening;
    // Part 2 has a block for each page, with "NVMADDR" and 8×Q steps.
    let erase = Block {
        loads: 1,
        steps: 8 * geometry.q,
    };
    let erasing = (geometry.b + geometry.p) * erase.length();
    if place < erasing {
        return erase.action(place % erase.length());
    }
    // Part 3 has one for each quad, with "NVMADDR, NVMDATA0 to 3" and one step.
    let program = Block { loads: 5, steps: 1 };
    program.action((place - erasing) % program.length())
}

/// Stores to registers from NVMADDR on, a launch, steps, and "clear 0x4000".
struct Block {
    loads: u32,
    steps: u32,
}

impl Block {
    fn length(&self) -> u32 {
        self.loads + LAUNCH.len() as u32 + self.steps + 1
    }

    fn action(&self, number: u32) -> Action {
        let Some(after) = number.checked_sub(self.loads) else {
            return Action::Store(NVMADDR + number);
        };
        match LAUNCH.get(after as usize) {
            Some(register) => Action::Store(*register),
            None if number + 1 < self.length() => Action::Step,
            None => Action::Store(NVMCON),
        }
    }
}
