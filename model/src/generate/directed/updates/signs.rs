//! Signs that an update start accepts, and the states that their updates reach.

use crate::cases::Case;
use crate::device::*;
use crate::geometry::{Banks, Geometry, ALL_ONES};
use crate::sequence::word_of;
use crate::tries::Move;
use crate::update;

use super::super::parts::*;

/// T of the old bank.
pub const OLD: u16 = 7;

/// A sign, with the image of its update.
#[derive(Clone)]
pub struct Sign {
    pub geometry: Geometry,
    pub device: Device,
    pub banks: Pair,
    pub image: Vec<u32>,
}

impl Sign {
    /// After power-on and start-up. The old bank is bank 2 where swapped; the other and the image are blank.
    pub fn blank(geometry: Geometry, swapped: bool) -> Sign {
        let mapping = if swapped { BFSWAP | PFSWAP } else { 0 };
        let device = with_con(Device::reset_values(), mapping);
        let words = geometry.bank_words() as usize;
        let mut sign = Sign {
            geometry,
            device: with_register(device, NVMCON2, RESETS[NVMCON2] | SWAPLOCK),
            banks: [1, 2].map(|_| vec![ALL_ONES; words]),
            image: vec![ALL_ONES; words],
        };
        let old = sign.old();
        sign.banks[old].fill(0x1111_1111);
        sign.with_sequences(word_of(OLD), word_of(OLD - 1))
    }

    /// The same with words at the ends of pages in the new bank and in the image.
    pub fn sparse(geometry: Geometry, swapped: bool) -> Sign {
        let mut sign = Sign::blank(geometry, swapped);
        let new = 1 - sign.old();
        for index in page_ends(&geometry) {
            sign.banks[new][index] = 100_000 + index as u32;
            sign.image[index] = 200_000 + index as u32;
        }
        sign.with_sequences(word_of(OLD), word_of(OLD - 1))
    }

    /// The same with a word for each index of the image, and no blank word in the new bank.
    pub fn full(geometry: Geometry, swapped: bool) -> Sign {
        let mut sign = Sign::blank(geometry, swapped);
        let new = 1 - sign.old();
        sign.banks[new].fill(0x2222_2222);
        for (index, word) in sign.image.iter_mut().enumerate() {
            *word = 1_000 + index as u32;
        }
        sign.with_sequences(word_of(OLD), word_of(OLD - 1))
    }

    /// The index of the old bank among both.
    pub fn old(&self) -> usize {
        usize::from(self.device.con(BFSWAP))
    }

    fn set_sequence(&mut self, bank: usize, word: u32) {
        self.banks[bank][self.geometry.sequence_index()] = word;
    }

    /// The sequence words of the old bank and of the other.
    pub fn with_sequences(&self, own: u32, other: u32) -> Sign {
        let mut sign = self.clone();
        sign.set_sequence(self.old(), own);
        sign.set_sequence(1 - self.old(), other);
        sign
    }

    pub fn with_device(&self, device: Device) -> Sign {
        Sign {
            device,
            ..self.clone()
        }
    }

    pub fn start(&self) -> Case {
        update_start(&self.geometry, self.device, &self.banks, &self.image)
    }

    /// The update written into a buffer.
    pub fn write(&self, buffer: &[u8]) -> Case {
        let (geometry, device) = (&self.geometry, self.device);
        write_script(geometry, device, &self.banks, &self.image, buffer)
    }

    /// Moves from place 0 on.
    pub fn tries(&self, moves: &[Move]) -> Case {
        let (geometry, device) = (&self.geometry, self.device);
        run(geometry, device, &self.banks, &self.image, moves)
    }

    pub fn turn(&self, place: u32) -> Case {
        self.turn_with(&[], place)
    }

    pub fn turn_with(&self, sram: &[u32], place: u32) -> Case {
        let geometry = &self.geometry;
        turn(geometry, self.device, &self.banks, &self.image, sram, place)
    }

    /// The turn at each of some places, ascending, in the state that the update has there.
    pub fn turns(&self, places: &[u32], cases: &mut Vec<Case>) {
        let mut sign = self.clone();
        let mut reached = 0;
        for place in places {
            sign.run(reached, *place);
            reached = *place;
            cases.push(sign.turn(*place));
        }
    }

    /// The sign at a place.
    pub fn at(&self, place: u32) -> Sign {
        let mut sign = self.clone();
        sign.run(0, place);
        sign
    }

    /// Turns from a place to another.
    fn run(&mut self, first: u32, last: u32) {
        let numbers = self.geometry.numbers();
        let [one, two] = &mut self.banks;
        let mut banks = Banks { one, two };
        for place in first..last {
            if let Ok(after) =
                update::turn(numbers, self.device, &mut banks, &self.image, &[], place)
            {
                self.device = after.device;
            }
        }
    }
}

/// The first and last two words of the first two and last pages of both windows.
pub fn page_ends(geometry: &Geometry) -> Vec<usize> {
    let (boot, page) = (geometry.boot_pages, geometry.page_words());
    let last = geometry.pages() - 1;
    let mut ends = Vec::new();
    for number in each_once(&[0, 1, boot - 1, boot, (boot + 1).min(last), last]) {
        let (first, past) = (number * page, (number + 1) * page);
        ends.extend([first, first + 1, past - 2, past - 1].map(|index| index as usize));
    }
    ends
}
