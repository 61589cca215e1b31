//! Stores to NVMADDR, NVMDATA0 to 3 and NVMSRCADDR while an operation runs: the operation works by what it was launched with.

mod records;
mod steps;
mod stores;
mod walks;

use crate::cases::Case;

pub fn cases() -> Vec<Case> {
    [
        stores::cases(),
        steps::cases(),
        records::cases(),
        walks::cases(),
    ]
    .concat()
}
