//! Calls of an update.

use super::Answer;
use crate::inputs::Inputs;
use crate::outputs::Outputs;

pub fn update_start(inputs: &mut Inputs) -> Answer {
    let (sign, device) = inputs.sign()?;
    let (banks, image) = (inputs.banks()?, inputs.words()?);
    let started = yohrundel::update_start(sign, device, &banks.one, &banks.two, &image)?;
    Ok(Outputs::accepted()
        .number(started.place)
        .number(started.total))
}

pub fn turn(inputs: &mut Inputs) -> Answer {
    let (sign, device) = inputs.sign()?;
    let before = inputs.banks()?;
    let (image, sram, place) = (inputs.words()?, inputs.words()?, inputs.number()?);
    let mut after = before.clone();
    let (one, two) = (&mut after.one, &mut after.two);
    let turned = yohrundel::turn(sign, device, one, two, &image, &sram, place)?;
    Ok(Outputs::accepted()
        .number(turned.outcome.done)
        .device(&turned.device)
        .number(turned.outcome.place)
        .number(turned.outcome.event)
        .bank_changes(&before, &after))
}
