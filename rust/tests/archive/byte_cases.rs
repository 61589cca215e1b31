//! Cases of the calls that write bytes alone.

use yohrundel::{page_sheet, write_script, Decline};

use crate::answers::{changes, text, Answer};
use crate::inputs::Inputs;
use crate::lent::Lent;

/// Makes a call on a copy of some bytes; the text of its answer and of what changed.
fn on_bytes(bytes: &[u8], call: impl FnOnce(&mut [u8]) -> Answer) -> String {
    let mut lent = Lent::new(bytes, 0x5A);
    let answer = call(lent.lend());
    let (count, changed) = changes(&[], bytes, lent.after());
    if !lent.margin_kept() {
        return String::from("bytes beside the lent ones changed");
    }
    match answer {
        Ok(outputs) => text(&Ok([outputs, vec![count], changed].concat())),
        Err(decline) if count == 0 => decline.number().to_string(),
        Err(decline) => format!("{}, but {count} bytes changed", decline.number()),
    }
}

pub fn sheet_case(inputs: &mut Inputs) -> String {
    let (sign, device) = (inputs.geometry(), inputs.device());
    let (one, two, buffer) = (inputs.list(), inputs.list(), inputs.bytes());
    on_bytes(&buffer, |buffer| {
        let bytes = page_sheet(sign, device, &one, &two, buffer)?;
        Ok(vec![bytes as u64])
    })
}

pub fn write_script_case(inputs: &mut Inputs) -> String {
    let (sign, device) = (inputs.geometry(), inputs.device());
    let (one, two, image) = (inputs.list(), inputs.list(), inputs.list());
    on_bytes(&inputs.bytes(), |buffer| {
        let records = write_script(sign, device, &one, &two, &image, buffer)?;
        Ok(vec![records.into()])
    })
}

/// One of the ways of the byte lanes.
pub fn lanes_case(inputs: &mut Inputs, way: fn(&[u8], &mut [u8]) -> Result<(), Decline>) -> String {
    let (source, target) = (inputs.bytes(), inputs.bytes());
    on_bytes(&target, |target| way(&source, target).map(|()| Vec::new()))
}
