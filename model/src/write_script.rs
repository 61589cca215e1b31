//! An update written as a service script: a record for each action.

use crate::device::Device;
use crate::geometry::{Banks, Geometry};
use crate::script::Record;
use crate::update::{action, lower_half_now, total, update_start, Action};
use crate::{Answer, Refusal};

/// "8 × total".
pub fn script_bytes(geometry: &Geometry) -> u32 {
    8 * total(geometry)
}

/// "every action is written as an 8-byte record into a lent buffer, in order, and bytes past the last record keep their contents".
/// Gives the number of records.
pub fn write_script(
    numbers: [u32; 3],
    device: &Device,
    banks: &Banks,
    image: &[u32],
    buffer: &mut [u8],
) -> Answer<u32> {
    // "Start's own checks come first."
    let (_, total) = update_start(numbers, device, banks, image)?;
    let geometry = Geometry::new(numbers)?;
    // Decline 17: "the buffer is shorter than 8 × total"
    let script = buffer
        .get_mut(..script_bytes(&geometry) as usize)
        .ok_or(Refusal::ScriptBuffer)?;
    let low = lower_half_now(&geometry, device, banks);
    for (place, bytes) in (0..total).zip(script.chunks_exact_mut(8)) {
        bytes.copy_from_slice(&record(action(&geometry, low, image, place)).bytes());
    }
    Ok(total)
}

fn record(action: Action) -> Record {
    match action {
        Action::Store {
            register,
            form,
            value,
        } => Record::Store {
            register: register as u8,
            form: form as u8,
            value,
        },
        Action::Step => Record::Step,
    }
}
