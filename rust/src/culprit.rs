//! What a call was declined for: the number, the length, the register, the word or the record that is wrong.
//!
//! A call answers with its [`Decline`] alone. Each function here has the name of a call and takes what that takes, as far as a decline
//! depends on it. It names the culprit, and gives none where the call is not declined. It only explains: the call stays the judge. A declined
//! call leaves what it was lent as it was, so its culprit can be asked for afterwards.
//!
//! Where several things are wrong it is the one of the lowest decline, and of these the first in the order of the paper's sentence.
//!
//! ```
//! use yohrundel::{culprit, store, Decline, Device, Geometry};
//!
//! let sign = Geometry { q: 1, b: 1, p: 1 };
//! let mut device = Device::power_on();
//! device.nvmbwp = 0x9F9F;
//! assert_eq!(store(sign, device, 0, 0, 4), Err(Decline::Device));
//! let culprit = culprit::store(sign, &device, 0, 0).unwrap();
//! assert_eq!(culprit.decline(), Decline::Device);
//! assert_eq!(culprit.to_string(), "NVMBWP is 0x00009F9F, with bit 6 clear");
//! ```

mod action;
mod address;
mod calls;
mod device;
mod device_text;
mod hours;
mod lengths;
mod protection;
mod register;
mod row;
mod running;
mod script;
mod sequence;
mod shown;
mod windows;

pub use address::AddressClause;
pub use calls::{
    flash_read, lanes, lower_bank, page, page_sheet, plan, play, reach, register_read, reset,
    schedule, smallest, start_up, step, store, turn, update_start, write_script,
};
pub use device::{device_clause, DeviceClause};
pub use hours::HoursClause;
pub use lengths::{size_clause, LengthClause, Memory, SizeClause};
pub use protection::ProtectionClause;
pub use register::RegisterClause;
pub use row::{RowBank, RowClause};
pub use running::Attempt;
pub use script::{script_clause, RecordClause, ScriptClause};
pub use sequence::{sequence_clause, SequenceClause};

use std::fmt;

use crate::{Bank, Decline};

/// What a call is declined for. Its text is what follows a decline's: "declined by 13: the place exceeds the total: the place is 253, the
/// total 252".
///
/// There is none of [`Decline::Busy`], by which no call is declined.
#[derive(Clone, Debug, PartialEq, Eq, Hash)]
pub enum Culprit {
    /// By 1: Q, B or P.
    Geometry(SizeClause),
    /// By 2: lent memory.
    Length(LengthClause),
    /// By 3: the clause of the device record.
    Device(DeviceClause),
    /// By 4: the register or the form.
    Register(RegisterClause),
    /// By 5: what was tried while an operation runs.
    Running {
        /// What was tried.
        attempt: Attempt,
        /// NVMCON, with WR = 1.
        nvmcon: u32,
    },
    /// By 6: a step while none runs.
    Idle {
        /// The place of a turn whose action is the step; none for a step by itself.
        place: Option<u32>,
        /// NVMCON, with WR = 0.
        nvmcon: u32,
    },
    /// By 7: the reset kind.
    ResetKind(u32),
    /// By 8: the address or the page.
    Address(AddressClause),
    /// By 10: the clause of the sequence words and the mapping.
    Sequence(SequenceClause),
    /// By 11: the sequence word with T = 65,535.
    LastSequence {
        /// The bank on the lower alias.
        bank: Bank,
        /// Its sequence word.
        word: u32,
    },
    /// By 12: the register that protects what an update writes.
    Protection(ProtectionClause),
    /// By 13: the place.
    Place {
        /// The place.
        place: u32,
        /// The total, which it exceeds.
        total: u32,
    },
    /// By 14: the script's length, or its first record that is none.
    Script(ScriptClause),
    /// By 15: a number of a plan.
    Hours(HoursClause),
    /// By 16: all windows are too short.
    NoWait {
        /// The duration in minutes.
        duration: u32,
        /// The length of the longest window.
        longest: u32,
    },
    /// By 17: the buffer for a script.
    ScriptBuffer {
        /// Its bytes.
        bytes: usize,
        /// Those of the script.
        asked: usize,
    },
    /// By 18: the buffer for a page sheet.
    SheetBuffer {
        /// Its bytes.
        bytes: usize,
        /// Those of the sheet.
        asked: usize,
    },
    /// By 19: the list, K, the last served, the queue or a bank of a row.
    Row(RowClause),
    /// By 20: how many records the script has.
    Records(usize),
    /// By 21: the number, and what the play gives.
    NotShown {
        /// The number that is asked for.
        number: u32,
        /// The answers of the play, each once and ascending.
        answers: Vec<u32>,
    },
    /// By 22: the lengths of byte lanes.
    Lanes {
        /// The bytes of the source.
        source: usize,
        /// The bytes of the target.
        target: usize,
    },
}

impl Culprit {
    /// The decline that it is of.
    pub fn decline(&self) -> Decline {
        match self {
            Culprit::Geometry(_) => Decline::Geometry,
            Culprit::Length(_) => Decline::Length,
            Culprit::Device(_) => Decline::Device,
            Culprit::Register(_) => Decline::Register,
            Culprit::Running { .. } => Decline::Running,
            Culprit::Idle { .. } => Decline::Idle,
            Culprit::ResetKind(_) => Decline::ResetKind,
            Culprit::Address(_) => Decline::Address,
            Culprit::Sequence(_) => Decline::Sequence,
            Culprit::LastSequence { .. } => Decline::LastSequence,
            Culprit::Protection(_) => Decline::Protection,
            Culprit::Place { .. } => Decline::Place,
            Culprit::Script(_) => Decline::Script,
            Culprit::Hours(_) => Decline::Hours,
            Culprit::NoWait { .. } => Decline::NoWait,
            Culprit::ScriptBuffer { .. } => Decline::ScriptBuffer,
            Culprit::SheetBuffer { .. } => Decline::SheetBuffer,
            Culprit::Row(_) => Decline::Row,
            Culprit::Records(_) => Decline::Records,
            Culprit::NotShown { .. } => Decline::NotShown,
            Culprit::Lanes { .. } => Decline::Lanes,
        }
    }
}

impl fmt::Display for Culprit {
    fn fmt(&self, f: &mut fmt::Formatter<'_>) -> fmt::Result {
        match self {
            Culprit::Geometry(clause) => clause.fmt(f),
            Culprit::Length(clause) => clause.fmt(f),
            Culprit::Device(clause) => clause.fmt(f),
            Culprit::Register(clause) => clause.fmt(f),
            Culprit::Running { attempt, nvmcon } => running::write_running(f, *attempt, *nvmcon),
            Culprit::Idle { place, nvmcon } => running::write_idle(f, *place, *nvmcon),
            Culprit::ResetKind(kind) => write!(f, "the reset kind is {kind}, not 0 to 2"),
            Culprit::Address(clause) => clause.fmt(f),
            Culprit::Sequence(clause) => clause.fmt(f),
            Culprit::LastSequence { bank, word } => sequence::write_last(f, *bank, *word),
            Culprit::Protection(clause) => clause.fmt(f),
            Culprit::Place { place, total } => write!(f, "the place is {place}, the total {total}"),
            Culprit::Script(clause) => clause.fmt(f),
            Culprit::Hours(clause) => clause.fmt(f),
            Culprit::NoWait { duration, longest } => hours::write_no_wait(f, *duration, *longest),
            Culprit::ScriptBuffer { bytes, asked } => {
                write!(f, "the buffer has {bytes} bytes, the script {asked}")
            }
            Culprit::SheetBuffer { bytes, asked } => {
                write!(f, "the buffer has {bytes} bytes, the sheet {asked}")
            }
            Culprit::Row(clause) => clause.fmt(f),
            Culprit::Records(records) => write!(f, "it has {records} records"),
            Culprit::NotShown { number, answers } => shown::write_not_shown(f, *number, answers),
            Culprit::Lanes { source, target } => lengths::write_lanes(f, *source, *target),
        }
    }
}
