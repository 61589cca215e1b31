//! Calls on a device alone.

use super::Answer;
use crate::inputs::Inputs;
use crate::outputs::Outputs;

pub fn store(inputs: &mut Inputs) -> Answer {
    let (sign, device) = inputs.sign()?;
    let (register, form, value) = (inputs.number()?, inputs.number()?, inputs.number()?);
    let stored = yohrundel::store(sign, device, register, form, value)?;
    Ok(Outputs::accepted()
        .device(&stored.device)
        .number(stored.event))
}

pub fn register_read(inputs: &mut Inputs) -> Answer {
    let (sign, device) = inputs.sign()?;
    let read = yohrundel::register_read(sign, device, inputs.number()?)?;
    Ok(Outputs::accepted().number(read.value).device(&read.device))
}

pub fn start_up(inputs: &mut Inputs) -> Answer {
    let (sign, device) = inputs.sign()?;
    let device = yohrundel::start_up(sign, device)?;
    Ok(Outputs::accepted().device(&device))
}
