//! An update written as a script.

use super::Answer;
use crate::inputs::Inputs;
use crate::outputs::Outputs;

pub fn write_script(inputs: &mut Inputs) -> Answer {
    let (sign, device) = inputs.sign()?;
    let (banks, image, before) = (inputs.banks()?, inputs.words()?, inputs.bytes()?);
    let mut after = before.clone();
    let (one, two) = (&banks.one, &banks.two);
    let records = yohrundel::write_script(sign, device, one, two, &image, &mut after)?;
    Ok(Outputs::accepted().number(records).changes(&before, &after))
}
