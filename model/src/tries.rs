//! Tries of one update: turns and flash reads, cut by resets, and start-ups, whole or cut.

use crate::device::Device;
use crate::flash::{flash_read, reset, step};
use crate::geometry::Banks;
use crate::store::{cut_start_up, start_up};
use crate::update::{turn, update_start, Turn};
use crate::Answer;

/// A call on the sign. A turn has so many words of SRAM, all 0; the other calls have none.
#[derive(Clone, Copy, Debug, PartialEq, Eq)]
pub enum Move {
    Turn {
        sram: u32,
    },
    FlashRead {
        address: u32,
    },
    /// One step inside a read that the supply cuts.
    Step,
    Reset {
        kind: u32,
        mask: [u32; 4],
    },
    StartUp,
    /// The first stores of a start-up, all where it has fewer; then the supply fails.
    CutStartUp {
        stores: u32,
    },
    /// Accepted it sets the place to 0.
    UpdateStart,
    /// So many turns; what they give is what the last one gives.
    Turns {
        sram: u32,
        count: u32,
    },
}

impl Move {
    /// The words of SRAM that a turn has.
    pub fn sram(self) -> Option<u32> {
        match self {
            Move::Turn { sram } | Move::Turns { sram, .. } => Some(sram),
            _ => None,
        }
    }
}

/// What a move gives: the word that a flash read gives, else 0, and whether there was an event.
#[derive(Clone, Copy, Debug, Default, PartialEq, Eq)]
pub struct Made {
    pub word: u32,
    pub event: bool,
}

/// A sign with the image of its update and the update's place. A declined move changes nothing.
#[derive(Clone, Debug, PartialEq, Eq)]
pub struct Sign {
    pub numbers: [u32; 3],
    pub device: Device,
    pub banks: [Vec<u32>; 2],
    pub image: Vec<u32>,
    pub place: u32,
}

impl Sign {
    /// At place 0.
    pub fn new(numbers: [u32; 3], device: Device, banks: [Vec<u32>; 2], image: Vec<u32>) -> Sign {
        Sign {
            numbers,
            device,
            banks,
            image,
            place: 0,
        }
    }

    pub fn make(&mut self, next: Move) -> Answer<Made> {
        let (numbers, device) = (self.numbers, self.device);
        let [one, two] = &mut self.banks;
        let mut banks = Banks { one, two };
        let mut made = Made::default();
        self.device = match next {
            Move::Turn { sram } => return self.turns(sram, 1),
            Move::Turns { sram, count } => return self.turns(sram, count),
            Move::FlashRead { address } => {
                let read = flash_read(numbers, device, &mut banks, &[], address)?;
                (made.word, made.event) = (read.word, read.event);
                read.device
            }
            Move::Step => {
                let (after, event) = step(numbers, device, &mut banks, &[])?;
                made.event = event;
                after
            }
            Move::Reset { kind, mask } => {
                reset(numbers, device, &mut banks, &[], kind, mask)?.device
            }
            Move::StartUp => start_up(numbers, device)?,
            Move::CutStartUp { stores } => cut_start_up(numbers, device, stores)?,
            Move::UpdateStart => {
                (self.place, _) = update_start(numbers, &device, &banks, &self.image)?;
                device
            }
        };
        Ok(made)
    }

    fn turns(&mut self, sram: u32, count: u32) -> Answer<Made> {
        let sram = vec![0; sram as usize];
        let mut made = Made::default();
        for _ in 0..count {
            let turned = self.turn(&sram)?;
            made.event = turned.event;
            // A turn after one that is declined or says done finds and gives the same.
            if turned.done {
                break;
            }
        }
        Ok(made)
    }

    fn turn(&mut self, sram: &[u32]) -> Answer<Turn> {
        let [one, two] = &mut self.banks;
        let mut banks = Banks { one, two };
        let (device, image) = (self.device, &self.image);
        let turned = turn(self.numbers, device, &mut banks, image, sram, self.place)?;
        (self.device, self.place) = (turned.device, turned.place);
        Ok(turned)
    }
}
