//! Lists of calls on a sign that is updated, cut and started up.

use yohrundel::{cut_start_up, flash_read, reset, start_up, step, turn_lent, update_start};
use yohrundel::{Bank, Decline, Device, Geometry, TurnOutcome};

use super::{Answer, Refusal};
use crate::inputs::{filled, Banks, Inputs, NoCase};
use crate::outputs::Outputs;

/// A move, as a line gives it.
enum Move {
    Turns { sram: Vec<u32>, count: u32 },
    FlashRead { address: u32 },
    Step,
    Reset { kind: u32, mask: [u32; 4] },
    StartUp,
    CutStartUp { stores: u32 },
    UpdateStart,
}

/// What the moves work on.
struct Sign {
    geometry: Geometry,
    device: Device,
    banks: Banks,
    image: Vec<u32>,
    place: u32,
}

/// "m times (ans word event NVMCON place), then D C, then the bank that BFSWAP and PFSWAP both put lower, 0 where they differ".
pub fn run(inputs: &mut Inputs) -> Answer {
    let (geometry, device) = inputs.sign()?;
    let (before, image) = (inputs.banks()?, inputs.words()?);
    let moves: Result<Vec<Move>, Refusal> = (0..inputs.number()?).map(|_| next(inputs)).collect();
    let mut sign = Sign {
        geometry,
        device,
        banks: before.clone(),
        image,
        place: 0,
    };
    let mut outputs = Outputs::none();
    for next in moves? {
        let (answer, word, event) = match sign.make(&next) {
            Ok((word, event)) => (0, word, event),
            Err(decline) => (decline.number(), 0, false),
        };
        outputs = outputs.number(answer).number(word).number(event);
        outputs = outputs.number(sign.device.nvmcon).number(sign.place);
    }
    Ok(outputs
        .device(&sign.device)
        .bank_changes(&before, &sign.banks)
        .number(sign.device.running_bank().map_or(0, Bank::number)))
}

fn next(inputs: &mut Inputs) -> Result<Move, Refusal> {
    Ok(match inputs.number()? {
        0 => Move::Turns {
            sram: sram(inputs)?,
            count: 1,
        },
        1 => Move::FlashRead {
            address: inputs.number()?,
        },
        2 => Move::Step,
        3 => Move::Reset {
            kind: inputs.number()?,
            mask: inputs.four()?,
        },
        4 => Move::StartUp,
        5 => Move::CutStartUp {
            stores: inputs.number()?,
        },
        6 => Move::UpdateStart,
        7 => Move::Turns {
            sram: sram(inputs)?,
            count: inputs.number()?,
        },
        _ => return Err(Refusal::NoCase),
    })
}

/// "n words of SRAM, all 0".
fn sram(inputs: &mut Inputs) -> Result<Vec<u32>, NoCase> {
    filled(inputs.number()? as usize, 0)
}

impl Sign {
    /// Word and event; a declined move leaves everything.
    fn make(&mut self, next: &Move) -> Result<(u32, bool), Decline> {
        let (geometry, device) = (self.geometry, self.device);
        let (one, two) = (&mut self.banks.one, &mut self.banks.two);
        let (mut word, mut event) = (0, false);
        self.device = match *next {
            Move::Turns { ref sram, count } => return Ok((0, self.turns(sram, count)?)),
            Move::FlashRead { address } => {
                let read = flash_read(geometry, device, one, two, &[], address)?;
                (word, event) = (read.word, read.event);
                read.device
            }
            Move::Step => {
                let stepped = step(geometry, device, one, two, &[])?;
                event = stepped.event;
                stepped.device
            }
            Move::Reset { kind, mask } => {
                reset(geometry, device, one, two, &[], kind, mask)?.device
            }
            Move::StartUp => start_up(geometry, device)?,
            Move::CutStartUp { stores } => cut_start_up(geometry, device, stores as usize)?,
            Move::UpdateStart => {
                self.place = update_start(geometry, device, one, two, &self.image)?.place;
                device
            }
        };
        Ok((word, event))
    }

    /// So many turns; the event of the last one.
    fn turns(&mut self, sram: &[u32], count: u32) -> Result<bool, Decline> {
        let mut event = false;
        for _ in 0..count {
            let outcome = self.turn(sram)?;
            event = outcome.event;
            // A turn after one that is declined or says done finds and gives the same.
            if outcome.done {
                break;
            }
        }
        Ok(event)
    }

    fn turn(&mut self, sram: &[u32]) -> Result<TurnOutcome, Decline> {
        let (geometry, device, image) = (self.geometry, &mut self.device, &self.image);
        let (one, two) = (&mut self.banks.one, &mut self.banks.two);
        let outcome = turn_lent(geometry, device, one, two, image, sram, self.place)?;
        self.place = outcome.place;
        Ok(outcome)
    }
}
