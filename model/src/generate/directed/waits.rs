//! Flash reads while an operation runs: one of a bank that it targets carries out its remaining steps first, another changes nothing.

mod aborts;
mod rest;
mod targets;
mod turns;
mod walks;
mod words;

use crate::cases::Case;

pub fn cases() -> Vec<Case> {
    [
        targets::cases(),
        words::cases(),
        aborts::cases(),
        rest::cases(),
        turns::cases(),
        walks::cases(),
    ]
    .concat()
}
