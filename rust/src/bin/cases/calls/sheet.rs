//! The page sheet.

use super::Answer;
use crate::inputs::Inputs;
use crate::outputs::Outputs;

pub fn page_sheet(inputs: &mut Inputs) -> Answer {
    let (sign, device) = inputs.sign()?;
    let (banks, before) = (inputs.banks()?, inputs.bytes()?);
    let mut after = before.clone();
    let bytes = yohrundel::page_sheet(sign, device, &banks.one, &banks.two, &mut after)?;
    Ok(Outputs::accepted().count(bytes).changes(&before, &after))
}
