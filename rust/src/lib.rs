//! The Live Update flash controller and its bank updater, proved in Rattle and called from Rust.
//!
//! A sign has a [`Device`] and two banks of words, whose sizes its [`Geometry`] gives. Each call takes them, does its work, or is
//! declined by a [`Decline`]; a declined call leaves everything as it was, but for the scratch banks of [`smallest`]. Any numbers,
//! lengths and contents are taken. [`Sign`] has all of a sign in one place, and the calls as its methods. [`culprit`] says what a
//! call was declined for.
//!
//! ```
//! use yohrundel::{reset, start_up, update_start, Bank, Decline, Device, Geometry, Reason};
//!
//! fn main() -> Result<(), Decline> {
//!     let sign = Geometry { q: 1, b: 1, p: 1 };
//!     let (mut one, mut two) = ([!0; 64], [!0; 64]);
//!     one[sign.sequence_index()?] = 0xFFFE_0001;
//!     let restarted = reset(sign, Device::power_on(), &mut one, &mut two, &[], 0, [0; 4])?;
//!     assert_eq!(restarted.reason, Reason::OnlyOneValid);
//!     let device = start_up(sign, restarted.device)?;
//!     assert_eq!(device.running_bank(), Some(Bank::One));
//!     let update = update_start(sign, device, &one, &two, &[7; 64])?;
//!     println!("an update has {} actions", update.total);
//!     Ok(())
//! }
//! ```
//!
//! `examples/update.rs` runs a whole update with a cut. "The paper" is document 01, *Live Update flash: controller and bank updater*.

#![deny(missing_docs)]

mod bank_calls;
mod compare;
pub mod culprit;
mod cut_start_up;
mod decline;
mod device;
mod device_calls;
mod ffi;
mod geometry;
mod lanes;
mod numbers;
mod plan;
mod reach;
mod schedule;
mod script_calls;
mod sheet;
mod sign;
mod smallest;
mod update_calls;

pub use bank_calls::{flash_read, lower_bank, page, reset, step, FlashRead, Restarted, Stepped};
pub use compare::{compare, Compared, Reason};
pub use cut_start_up::{cut_start_up, start_up_stores};
pub use decline::Decline;
pub use device::{Bank, Device, Operands};
pub use device_calls::{register_read, start_up, store, RegisterRead, Stored};
pub use geometry::Geometry;
pub use lanes::{lanes_back, lanes_out};
pub use numbers::{form, nvmcon, register, reset_kind};
pub use plan::plan;
pub use reach::{reach, Reach};
pub use schedule::{schedule, Queue, Served, SignRecord, Standing, Supply, MOST_SIGNS};
pub use script_calls::{play, play_length, write_script, Played};
pub use sheet::page_sheet;
pub use sign::Sign;
pub use smallest::{smallest, Bench, MOST_RECORDS};
pub use update_calls::{turn, turn_lent, update_start, Started, TurnOutcome, Turned};
