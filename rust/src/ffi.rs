//! The archive's functions and their answers as `include/yohrundel.h` declares them, and the one place that calls them.
//!
//! What takes or gives a device has a symbol that ends in `_2`, as in the header: an archive that knows the shorter device of before does
//! not link. The flash read's ends in `_3` since it is lent the SRAM and gives a device; a call that came later has its name alone.
//!
//! A slice is two arguments, a pointer and a count. The functions take every number, every length and every content. What they ask of a
//! caller a borrow gives: each pointer is that of a slice of as many elements, which lives during the call, and what is written is
//! borrowed by that call alone.

#![allow(unsafe_code)]

mod banks;
mod compare;
mod device;
mod lanes;
mod plan;
mod play;
mod reach;
mod schedule;
mod sheet;
mod smallest;
mod update;
mod write_script;

pub(crate) use banks::{flash_read, lower_bank, page, reset, step};
pub(crate) use compare::compare;
pub(crate) use device::{power_on, register_read, start_up, store};
pub(crate) use lanes::{lanes_back, lanes_out};
pub(crate) use plan::plan_numbers;
pub(crate) use play::{play, play_length};
pub(crate) use reach::reach;
pub(crate) use schedule::schedule;
pub(crate) use sheet::page_sheet;
pub(crate) use smallest::smallest;
pub(crate) use update::{turn_lent, update_start, TurnOutcome};
pub(crate) use write_script::write_script;
