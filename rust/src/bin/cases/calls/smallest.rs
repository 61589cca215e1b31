//! The smallest script that shows a number.

use yohrundel::{Bench, Decline};

use super::{Answer, Refusal};
use crate::inputs::Inputs;
use crate::outputs::Outputs;

/// "0 records X C; or 21 C; or ans. X is of the result, C of the scratch banks".
pub fn smallest(inputs: &mut Inputs) -> Answer {
    let (geometry, device) = inputs.sign()?;
    let (banks, sram, before) = (inputs.banks()?, inputs.words()?, inputs.banks()?);
    let (script, number, held) = (inputs.bytes()?, inputs.number()?, inputs.bytes()?);
    let (mut after, mut result) = (before.clone(), held.clone());
    let bench = Bench {
        geometry,
        device,
        one: &banks.one,
        two: &banks.two,
        sram: &sram,
    };
    let scratch = [&mut after.one[..], &mut after.two];
    match yohrundel::smallest(bench, scratch, &script, number, &mut result) {
        Ok(records) => Ok(Outputs::accepted()
            .number(records)
            .changes(&held, &result)
            .bank_changes(&before, &after)),
        Err(Decline::NotShown) => {
            let declined = Outputs::only(Decline::NotShown.number());
            Ok(declined.bank_changes(&before, &after))
        }
        Err(decline) => Err(Refusal::Declined(decline)),
    }
}
