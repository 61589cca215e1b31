//! Byte lanes, out and back.

use yohrundel::Decline;

use super::Answer;
use crate::inputs::Inputs;
use crate::outputs::Outputs;

pub fn lanes_out(inputs: &mut Inputs) -> Answer {
    sent(inputs, yohrundel::lanes_out)
}

pub fn lanes_back(inputs: &mut Inputs) -> Answer {
    sent(inputs, yohrundel::lanes_back)
}

fn sent(inputs: &mut Inputs, way: fn(&[u8], &mut [u8]) -> Result<(), Decline>) -> Answer {
    let (source, before) = (inputs.bytes()?, inputs.bytes()?);
    let mut after = before.clone();
    way(&source, &mut after)?;
    Ok(Outputs::accepted().changes(&before, &after))
}
