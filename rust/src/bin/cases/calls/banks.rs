//! Calls on banks, and on a device and its banks.

use std::ptr;

use super::{Answer, Refusal};
use crate::inputs::Inputs;
use crate::outputs::Outputs;

pub fn flash_read(inputs: &mut Inputs) -> Answer {
    let (sign, device) = inputs.sign()?;
    let before = inputs.banks()?;
    let (sram, address) = (inputs.words()?, inputs.number()?);
    let mut after = before.clone();
    let (one, two) = (&mut after.one, &mut after.two);
    let read = yohrundel::flash_read(sign, device, one, two, &sram, address)?;
    Ok(Outputs::accepted()
        .number(read.word)
        .number(read.event)
        .device(&read.device)
        .bank_changes(&before, &after))
}

/// The number of the bank that is handed back. It is the lent one, which is told by where it stands: so banks that are equal word for word
/// are told apart, and the number is that of the bank which BFSWAP names.
pub fn lower_bank(inputs: &mut Inputs) -> Answer {
    let (sign, device) = inputs.sign()?;
    let banks = inputs.banks()?;
    let lower = yohrundel::lower_bank(sign, device, &banks.one, &banks.two)?;
    for (number, bank) in [(1u32, &banks.one), (2, &banks.two)] {
        if ptr::eq(lower, &bank[..]) {
            return Ok(Outputs::accepted().number(number));
        }
    }
    Err(Refusal::NoCase)
}

/// The first word's index, by the page number, and the length of the part handed back, which is the bank's part there.
pub fn page(inputs: &mut Inputs) -> Answer {
    let sign = inputs.geometry()?;
    let (bank, number) = (inputs.words()?, inputs.number()?);
    let part = yohrundel::page(sign, &bank, number)?;
    let first = number as usize * part.len();
    match bank.get(first..first + part.len()) {
        Some(there) if ptr::eq(part, there) => {
            Ok(Outputs::accepted().count(first).count(part.len()))
        }
        _ => Err(Refusal::NoCase),
    }
}

pub fn step(inputs: &mut Inputs) -> Answer {
    let (sign, device) = inputs.sign()?;
    let (before, sram) = (inputs.banks()?, inputs.words()?);
    let mut after = before.clone();
    let stepped = yohrundel::step(sign, device, &mut after.one, &mut after.two, &sram)?;
    Ok(Outputs::accepted()
        .device(&stepped.device)
        .number(stepped.event)
        .bank_changes(&before, &after))
}

pub fn reset(inputs: &mut Inputs) -> Answer {
    let (sign, device) = inputs.sign()?;
    let (before, sram) = (inputs.banks()?, inputs.words()?);
    let (kind, mask) = (inputs.number()?, inputs.four()?);
    let mut after = before.clone();
    let (one, two) = (&mut after.one, &mut after.two);
    let restarted = yohrundel::reset(sign, device, one, two, &sram, kind, mask)?;
    Ok(Outputs::accepted()
        .device(&restarted.device)
        .number(restarted.reason.number())
        .bank_changes(&before, &after))
}
