//! Rules that no call gives by itself, by calls that follow them.

use yohrundel::form::PLAIN;
use yohrundel::nvmcon::BFSWAP;
use yohrundel::register::{NVMBWP, NVMCON, NVMPWP};
use yohrundel::reset_kind::POWER_ON;
use yohrundel::{page_sheet, register_read, reset, store, Decline, Device, Geometry};

use super::{Answer, Refusal};
use crate::inputs::Inputs;
use crate::outputs::Outputs;

/// The bank alone.
pub fn compare(inputs: &mut Inputs) -> Answer {
    let compared = yohrundel::compare(inputs.number()?, inputs.number()?);
    Ok(Outputs::only(compared.bank.number()))
}

pub fn compare_reason(inputs: &mut Inputs) -> Answer {
    let compared = yohrundel::compare(inputs.number()?, inputs.number()?);
    Ok(Outputs::only(compared.bank.number()).number(compared.reason.number()))
}

/// A valid word in bank 2 goes lower beside an erased one, which is not valid, and no other word does: as a reset of a smallest sign finds.
pub fn valid_by_sum(inputs: &mut Inputs) -> Answer {
    let sign = Geometry { q: 1, b: 1, p: 1 };
    let (mut one, mut two) = ([!0; 64], [!0; 64]);
    two[28] = inputs.number()?;
    let device = Device::power_on();
    let restarted = reset(sign, device, &mut one, &mut two, &[], POWER_ON, [0; 4])?;
    Ok(Outputs::only(u32::from(
        restarted.device.nvmcon & BFSWAP != 0,
    )))
}

/// Whether a register read is not declined by 3.
pub fn possible(inputs: &mut Inputs) -> Answer {
    let (sign, device) = inputs.sign()?;
    match register_read(sign, device, NVMCON) {
        Err(Decline::Geometry) => Err(Refusal::NoCase),
        Err(Decline::Device) => Ok(Outputs::only(0)),
        _ => Ok(Outputs::only(1)),
    }
}

/// The bytes of a page sheet's line, and the one of them that is 1 for a protected page.
const LINE: usize = 17;
const PROTECTED: usize = 10;

/// What the page sheet has in a page's column.
pub fn protected(inputs: &mut Inputs) -> Answer {
    let (sign, device) = inputs.sign()?;
    let (kind, side, page) = (inputs.number()?, inputs.number()?, inputs.number()?);
    let pages = [sign.b, sign.p];
    let of_kind = pages.get(kind as usize).ok_or(Refusal::NoCase)?;
    if sign.pages().is_err() || side > 1 || page >= *of_kind {
        return Err(Refusal::NoCase);
    }
    let sheet = sheet(sign, under_protection_of(sign, device)?)?;
    // Bank 1 is lower, and each bank has its boot pages first.
    let line = side * (sign.b + sign.p) + kind * sign.b + page;
    let byte = sheet[line as usize * LINE + PROTECTED];
    Ok(Outputs::only(u32::from(byte == b'1')))
}

/// A device after power-on with what another has in NVMPWP and NVMBWP: any record has protected pages, an impossible one too.
fn under_protection_of(sign: Geometry, other: Device) -> Result<Device, Decline> {
    let mut device = Device::power_on();
    for (register, value) in [(NVMPWP, other.nvmpwp), (NVMBWP, other.nvmbwp)] {
        let open = Device {
            keystep: 3,
            ..device
        };
        device = store(sign, open, register, PLAIN, value)?.device;
    }
    Ok(device)
}

/// The page sheet of a sign with blank banks.
fn sheet(sign: Geometry, device: Device) -> Result<Vec<u8>, Decline> {
    let bank = vec![!0; sign.bank_words()?];
    let mut sheet = vec![0; sign.sheet_bytes()?];
    page_sheet(sign, device, &bank, &bank, &mut sheet)?;
    Ok(sheet)
}
