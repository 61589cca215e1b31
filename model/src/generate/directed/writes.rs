//! Written scripts: buffers around their length, what the records hold, and every decline.

mod buffers;
mod records;
mod starts;

use crate::cases::Case;
use crate::geometry::Geometry;
use crate::write_script::script_bytes;

use super::orders::{combined, Cause, START};
use super::parts::*;
use super::updates::Sign;

pub fn cases() -> Vec<Case> {
    let ordered = ordered_writes().into_iter().map(|(_, case)| case).collect();
    [buffers::cases(), records::cases(), starts::cases(), ordered].concat()
}

/// The script of a sign's update into a buffer of its length, filled with zeros.
fn written(sign: &Sign) -> Case {
    sign.write(&vec![0; script_bytes(&sign.geometry) as usize])
}

/// The sign that `three_quads` makes of the smallest one, which decline 1 refuses.
const THREE_QUADS: Geometry = Geometry {
    row_quads: 3,
    ..SMALL
};

/// "17, after those": every set of declines, each case with the lowest number, 0 where none applies.
pub fn ordered_writes() -> Vec<(u32, Case)> {
    let banks = blank(&SMALL);
    let image = vec![0; banks[0].len()];
    let buffer = vec![0; script_bytes(&THREE_QUADS) as usize];
    let base = write_script(&SMALL, idle(), &banks, &image, &buffer);
    let single = START.map(|(number, changes)| (number, &changes[..1]));
    let buffer: Cause = (17, &[buffer_shorter]);
    combined(base, &[&single[..], &[buffer]].concat())
}

/// A byte too short for the smallest sign.
fn buffer_shorter(case: &mut Case) {
    case.lists[3].length = script_bytes(&SMALL) as usize - 1;
}
