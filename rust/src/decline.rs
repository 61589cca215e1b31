//! Why a call is declined.

use std::error::Error;
use std::fmt;

/// Why a call is declined, by the paper's numbers. Where several apply a call gives the lowest. A later request may add numbers.
#[derive(Clone, Copy, Debug, PartialEq, Eq, Hash)]
#[non_exhaustive]
#[repr(u32)]
pub enum Decline {
    /// Q, B or P is outside its list or range.
    Geometry = 1,
    /// A bank or image has another length than N×32×Q words, a result another length than its script, or the SRAM exceeds 16,384.
    Length = 2,
    /// The device record is impossible.
    Device = 3,
    /// A register number above 10, a form above 3, or a form other than 0 for NVMKEY.
    Register = 4,
    /// With WR = 1: a store to another register than NVMADDR, NVMDATA0 to 3 and NVMSRCADDR, a start-up or an update start.
    Running = 5,
    /// A step with WR = 0.
    Idle = 6,
    /// A reset kind above 2.
    ResetKind = 7,
    /// A flash read outside the four windows or not on a multiple of 4; a page number of N or more.
    Address = 8,
    /// It was a flash read from a bank that the running operation targets. Such a read now waits, and no call gives the number.
    Busy = 9,
    /// The sequence words or the mapping do not allow an update.
    Sequence = 10,
    /// An update start with T = 65,535.
    LastSequence = 11,
    /// An update start with UBWPULOCK = 0 or PWP at least P×128×Q.
    Protection = 12,
    /// A turn whose place exceeds the total.
    Place = 13,
    /// No script: a length that isn't a multiple of 8, an unknown record, or an unused byte that is not 0.
    Script = 14,
    /// A number of a plan is out of its range.
    Hours = 15,
    /// No wait fits a plan.
    NoWait = 16,
    /// A buffer that is shorter than the script of an update, 8 bytes for each of its actions.
    ScriptBuffer = 17,
    /// A buffer that is shorter than the page sheet.
    SheetBuffer = 18,
    /// A row's list length, K or last served out of range, a queue that repeats a record or oversteps the list, or overlapping or
    /// overhanging banks.
    Row = 19,
    /// A script of more than 64 records, of which the smallest that shows a number is asked.
    Records = 20,
    /// A script of which the smallest that shows a number is asked, and whose play never gives the number.
    NotShown = 21,
    /// Byte lanes whose source and target differ in length, or have no multiple of 4 bytes.
    Lanes = 22,
}

impl Decline {
    /// All of them, in the order of their numbers.
    pub const ALL: &[Decline] = &[
        Decline::Geometry,
        Decline::Length,
        Decline::Device,
        Decline::Register,
        Decline::Running,
        Decline::Idle,
        Decline::ResetKind,
        Decline::Address,
        Decline::Busy,
        Decline::Sequence,
        Decline::LastSequence,
        Decline::Protection,
        Decline::Place,
        Decline::Script,
        Decline::Hours,
        Decline::NoWait,
        Decline::ScriptBuffer,
        Decline::SheetBuffer,
        Decline::Row,
        Decline::Records,
        Decline::NotShown,
        Decline::Lanes,
    ];

    /// The paper's number.
    pub fn number(self) -> u32 {
        self as u32
    }

    /// Why in words, without the number.
    pub fn sentence(self) -> &'static str {
        match self {
            Decline::Geometry => "the quads per row, boot pages or program pages are out of range",
            Decline::Length => "a bank, the image, the SRAM or the result has a wrong length",
            Decline::Device => "the device record is impossible",
            Decline::Register => "there is no such register or form",
            Decline::Running => "an operation is running",
            Decline::Idle => "no operation is running",
            Decline::ResetKind => "there is no such kind of reset",
            Decline::Address => "there is no such address or page",
            Decline::Busy => "no longer given",
            Decline::Sequence => "the sequence words or the mapping do not allow an update",
            Decline::LastSequence => "the last sequence number is in use",
            Decline::Protection => "the protection does not allow an update",
            Decline::Place => "the place exceeds the total",
            Decline::Script => "the script is malformed",
            Decline::Hours => "a number of the plan is out of range",
            Decline::NoWait => "no wait fits",
            Decline::ScriptBuffer => "the buffer is shorter than the script",
            Decline::SheetBuffer => "the buffer is shorter than the sheet",
            Decline::Row => "the row, its queue or the places of its banks are out of range",
            Decline::Records => "the script has more than 64 records",
            Decline::NotShown => "the play never gives the number",
            Decline::Lanes => "the two lengths differ or are no multiple of 4",
        }
    }

    /// What an answer's number says: 0 that the call is not declined.
    #[inline]
    pub(crate) fn judge(number: u32) -> Result<(), Decline> {
        match number {
            0 => Ok(()),
            _ => Err(Decline::numbered(number)),
        }
    }

    fn numbered(number: u32) -> Decline {
        let mut all = Decline::ALL.iter().copied();
        let decline = all.find(|decline| decline.number() == number);
        decline.expect("the library answers 0 or one of these numbers")
    }
}

/// The number and the sentence.
///
/// ```
/// use yohrundel::Decline;
///
/// assert_eq!(Decline::Device.to_string(), "declined by 3: the device record is impossible");
/// assert_eq!(Decline::Device.sentence(), "the device record is impossible");
/// ```
impl fmt::Display for Decline {
    fn fmt(&self, formatter: &mut fmt::Formatter<'_>) -> fmt::Result {
        write!(
            formatter,
            "declined by {}: {}",
            self.number(),
            self.sentence()
        )
    }
}

impl Error for Decline {}
