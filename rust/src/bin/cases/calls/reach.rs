//! Two images compared.

use yohrundel::Reach;

use super::Answer;
use crate::inputs::Inputs;
use crate::outputs::Outputs;

pub fn reach(inputs: &mut Inputs) -> Answer {
    let (sign, image, other) = (inputs.geometry()?, inputs.words()?, inputs.words()?);
    let outputs = Outputs::accepted();
    Ok(match yohrundel::reach(sign, &image, &other)? {
        Reach::Action { place } => outputs.number(0u32).number(place),
        Reach::NoAction => outputs.number(1u32),
        Reach::Words {
            count,
            lowest,
            highest,
        } => outputs
            .number(2u32)
            .number(count)
            .number(lowest)
            .number(highest),
    })
}
