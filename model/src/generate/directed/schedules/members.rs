//! Signs of a row: ones whose turn sets WR, clears it or leaves it, and ones that are passed over.

use crate::device::*;
use crate::geometry::{Geometry, ALL_ONES};
use crate::sequence::word_of;
use crate::update::total;

use super::super::parts::*;
use super::super::updates::{Sign, OLD};

/// The place of the launch of the first erase, and of its first and last step, with eight quads in a page.
pub const LAUNCH: u32 = 18;
pub const FIRST_STEP: u32 = 19;
pub const LAST_STEP: u32 = 26;

/// A sign with the words of its banks.
#[derive(Clone)]
pub struct Member {
    pub device: Device,
    pub place: u32,
    pub banks: Pair,
}

impl Member {
    pub fn with(&self, device: Device) -> Member {
        Member {
            device,
            ..self.clone()
        }
    }

    pub fn placed(&self, place: u32) -> Member {
        Member {
            place,
            ..self.clone()
        }
    }
}

/// A sign after power-on and start-up, with a word of its own at the start of each bank, else blank but for its sequence words.
pub fn sign(geometry: Geometry, number: u32, swapped: bool) -> Sign {
    let mut sign = Sign::blank(geometry, swapped);
    let words = geometry.bank_words() as usize;
    sign.banks = [0, 1].map(|bank| {
        let mut blank = vec![ALL_ONES; words];
        blank[0] = 10 * number + bank;
        blank
    });
    let low = OLD + number as u16;
    sign.with_sequences(word_of(low), word_of(low - 1))
}

/// The smallest sign in the state that its update has at a place.
pub fn at(number: u32, place: u32) -> Member {
    reached(&sign(SMALL, number, false), place)
}

pub fn reached(sign: &Sign, place: u32) -> Member {
    let sign = sign.at(place);
    Member {
        device: sign.device,
        place,
        banks: sign.banks,
    }
}

/// Of few bytes in a line: blank banks, reset values, place 0.
pub fn bare() -> Member {
    Member {
        device: Device::reset_values(),
        place: 0,
        banks: [1, 2].map(|_| vec![ALL_ONES; SMALL.bank_words() as usize]),
    }
}

/// Of few bytes, too, and its turn sets WR.
pub fn bare_launching() -> Member {
    let device = with_con(with_key(Device::reset_values(), 3), WREN | 4);
    bare()
        .with(with_register(device, NVMADDR, 0x1D00_0000))
        .placed(LAUNCH)
}

/// Its turn is a store that sets no WR.
pub fn ordinary(number: u32) -> Member {
    at(number, 0)
}

/// Its turn sets WR.
pub fn launching(number: u32) -> Member {
    at(number, LAUNCH)
}

/// WR is set, and its turn is a step that leaves it.
pub fn stepping(number: u32) -> Member {
    at(number, FIRST_STEP)
}

/// Its turn clears WR.
pub fn ending(number: u32) -> Member {
    at(number, LAST_STEP)
}

/// Its turn is a launch that fails: the target lies outside the windows.
pub fn failing(number: u32) -> Member {
    let member = launching(number);
    member.with(with_register(member.device, NVMADDR, 0))
}

/// Its turn is a launching store that launches nothing: WRERR is set.
pub fn barred(number: u32) -> Member {
    let member = launching(number);
    member.with(with_con(member.device, WRERR))
}

/// Its turn wants WR, and the key isn't open.
pub fn locked(number: u32) -> Member {
    let member = launching(number);
    member.with(with_key(member.device, 2))
}

pub fn finished(number: u32) -> Member {
    at(number, total(&SMALL))
}

/// WR is set at the total.
pub fn finished_running(number: u32) -> Member {
    stepping(number).placed(total(&SMALL))
}

/// Declined as 13.
pub fn past(number: u32) -> Member {
    finished(number).placed(total(&SMALL) + 1)
}

/// Declined as 3.
pub fn impossible(number: u32) -> Member {
    let member = ordinary(number);
    member.with(with_key(member.device, 4))
}

/// Declined as 3, and WR is set.
pub fn impossible_running(number: u32) -> Member {
    let member = stepping(number);
    member.with(with_con(member.device, LVDERR))
}

/// Declined as 5: a store with WR set.
pub fn busy(number: u32) -> Member {
    stepping(number).placed(0)
}

/// Declined as 6: a step with no WR set.
pub fn idling(number: u32) -> Member {
    ordinary(number).placed(FIRST_STEP)
}

pub type Make = fn(u32) -> Member;

pub const SERVED: [Make; 7] = [
    ordinary, launching, stepping, ending, failing, barred, locked,
];

pub const PASSED_OVER: [Make; 7] = [
    finished,
    finished_running,
    past,
    impossible,
    impossible_running,
    busy,
    idling,
];

/// A row of such signs.
pub fn row(makes: &[Make]) -> Vec<Member> {
    let makes = makes.iter().zip(0..);
    makes.map(|(make, number)| make(number)).collect()
}
