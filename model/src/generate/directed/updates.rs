//! Update starts and turns, on signs and in states that their updates reach.

mod signs;
mod starts;
mod turns;

pub use signs::{page_ends, Sign, OLD};

use crate::cases::Case;

pub fn cases() -> Vec<Case> {
    [starts::cases(), turns::cases()].concat()
}
