//! Buffers for a written script: around its length, and with bytes of it already there.

use crate::cases::Case;
use crate::geometry::{Banks, Geometry};
use crate::list::List;
use crate::random::Random;
use crate::write_script::{script_bytes, write_script};

use super::memory::set_bytes;

/// Scripts up to this length get any buffer; longer ones mostly one that is too short for them.
const SHORT_SCRIPT: u32 = 40_000;

/// The buffer of a case whose other inputs are those of an update start.
pub fn put_script_buffer(random: &mut Random, geometry: &Geometry, case: &mut Case) {
    let mut buffer = vec![fill(random); length(random, geometry) as usize];
    if random.one_in(3) {
        write(case, &mut buffer);
    }
    if random.one_in(2) {
        set_bytes(random, &mut buffer);
    }
    case.lists.push(List::from_bytes(&buffer));
}

fn fill(random: &mut Random) -> u8 {
    random.pick(&[0, 0, 0, 1, 2, 0x40, 0xFF])
}

fn length(random: &mut Random, geometry: &Geometry) -> u32 {
    let right = script_bytes(geometry);
    if right > SHORT_SCRIPT && !random.one_in(16) {
        return right - random.pick(&[1, 1, 2, 8]);
    }
    match random.below(10) {
        0 => right - 1,
        1 => random.pick(&[0, 8, right - 8, right - 7, right / 2]),
        2 | 3 => right + 1,
        4 | 5 => right + random.between(1, 64),
        _ => right,
    }
}

/// A declined call leaves the buffer as it is.
fn write(case: &Case, buffer: &mut [u8]) {
    let [mut one, mut two, image] = [0, 1, 2].map(|list| case.lists[list].words());
    let banks = Banks {
        one: &mut one,
        two: &mut two,
    };
    let _ = write_script(case.geometry, &case.device, &banks, &image, buffer);
}
