//! Reference model of the Live Update flash controller and its bank updater.
//!
//! Every rule is written in the most direct form of the paper's sentence.

pub mod cases;
pub mod clauses;
pub mod cuts;
pub mod device;
pub mod flash;
pub mod generate;
pub mod geometry;
pub mod lanes;
pub mod list;
pub mod operation;
pub mod plan;
pub mod random;
pub mod reach;
pub mod schedule;
pub mod script;
pub mod sequence;
pub mod sheet;
pub mod smallest;
pub mod store;
pub mod tries;
pub mod update;
pub mod write_script;

/// Why a call is declined, with the paper's numbers.
#[derive(Clone, Copy, Debug, PartialEq, Eq)]
pub enum Refusal {
    Geometry = 1,
    Length = 2,
    Device = 3,
    Register = 4,
    Running = 5,
    NotRunning = 6,
    ResetKind = 7,
    Address = 8,
    /// No call is declined with it: since W-207 such a read waits.
    TargetBank = 9,
    Sequence = 10,
    LastSequence = 11,
    Protection = 12,
    Place = 13,
    Script = 14,
    WeekRange = 15,
    NoWait = 16,
    ScriptBuffer = 17,
    SheetBuffer = 18,
    /// A list length, K or last served out of range, a queue that repeats a record or oversteps the list, or overlapping or
    /// overhanging banks.
    Row = 19,
    Records = 20,
    NotShown = 21,
    LaneLengths = 22,
}

impl Refusal {
    pub fn number(self) -> u32 {
        self as u32
    }
}

/// What a call gives, or the lowest number that applies.
pub type Answer<T> = Result<T, Refusal>;
