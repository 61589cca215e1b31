//! Garage hours.

use super::Answer;
use crate::inputs::Inputs;
use crate::outputs::Outputs;

pub fn plan(inputs: &mut Inputs) -> Answer {
    let (minute, duration) = (inputs.number()?, inputs.number()?);
    let wait = yohrundel::plan(minute, duration, &inputs.pairs()?)?;
    Ok(Outputs::accepted().number(wait))
}
