//! Lists of calls, each on what the one before left.

use yohrundel::{flash_read, register_read, reset, start_up, step, store};
use yohrundel::{Decline, Device, Geometry};

use super::{Answer, Refusal};
use crate::inputs::{Banks, Inputs};
use crate::outputs::Outputs;

/// A move, as a line gives it.
enum Move {
    Store {
        register: u32,
        form: u32,
        value: u32,
    },
    RegisterRead {
        register: u32,
    },
    Step,
    Reset {
        kind: u32,
        mask: [u32; 4],
    },
    StartUp,
    FlashRead {
        address: u32,
    },
}

/// What the moves work on.
struct Sign {
    geometry: Geometry,
    device: Device,
    banks: Banks,
    sram: Vec<u32>,
}

/// "n times (ans value event), then D C".
pub fn walk(inputs: &mut Inputs) -> Answer {
    let (geometry, device) = inputs.sign()?;
    let (before, sram) = (inputs.banks()?, inputs.words()?);
    let moves: Result<Vec<Move>, Refusal> = (0..inputs.number()?).map(|_| next(inputs)).collect();
    let banks = before.clone();
    let mut sign = Sign {
        geometry,
        device,
        banks,
        sram,
    };
    let mut outputs = Outputs::none();
    for next in moves? {
        let (answer, value, event) = match sign.make(&next) {
            Ok((value, event)) => (0, value, event),
            Err(decline) => (decline.number(), 0, false),
        };
        outputs = outputs.number(answer).number(value).number(event);
    }
    Ok(outputs
        .device(&sign.device)
        .bank_changes(&before, &sign.banks))
}

fn next(inputs: &mut Inputs) -> Result<Move, Refusal> {
    Ok(match inputs.number()? {
        0 => Move::Store {
            register: inputs.number()?,
            form: inputs.number()?,
            value: inputs.number()?,
        },
        1 => Move::RegisterRead {
            register: inputs.number()?,
        },
        2 => Move::Step,
        3 => Move::Reset {
            kind: inputs.number()?,
            mask: inputs.four()?,
        },
        4 => Move::StartUp,
        5 => Move::FlashRead {
            address: inputs.number()?,
        },
        _ => return Err(Refusal::NoCase),
    })
}

impl Sign {
    /// Value and event; a declined move leaves everything.
    fn make(&mut self, next: &Move) -> Result<(u32, bool), Decline> {
        let (geometry, device) = (self.geometry, self.device);
        let (one, two) = (&mut self.banks.one, &mut self.banks.two);
        match *next {
            Move::Store {
                register,
                form,
                value,
            } => {
                let stored = store(geometry, device, register, form, value)?;
                self.device = stored.device;
                Ok((0, stored.event))
            }
            Move::RegisterRead { register } => {
                let read = register_read(geometry, device, register)?;
                self.device = read.device;
                Ok((read.value, false))
            }
            Move::Step => {
                let stepped = step(geometry, device, one, two, &self.sram)?;
                self.device = stepped.device;
                Ok((0, stepped.event))
            }
            Move::Reset { kind, mask } => {
                let restarted = reset(geometry, device, one, two, &self.sram, kind, mask)?;
                self.device = restarted.device;
                Ok((restarted.reason.number(), false))
            }
            Move::StartUp => {
                self.device = start_up(geometry, device)?;
                Ok((0, false))
            }
            Move::FlashRead { address } => {
                let read = flash_read(geometry, device, one, two, &self.sram, address)?;
                self.device = read.device;
                Ok((read.word, read.event))
            }
        }
    }
}
