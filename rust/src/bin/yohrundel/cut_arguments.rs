//! How the supply fails, as arguments: one cut after another, each with its options.

use yohrundel::Geometry;

use crate::arguments::{decimal, hexadecimal, Arguments, DECIMAL_WORDS};
use crate::failure::Failure;
use crate::options::OptionSpec;
use crate::resets::{take_kind, take_mask, Kind};

/// The read of a cut.
pub const READ: OptionSpec = OptionSpec::value(
    "--read",
    "ADDRESS",
    "before the supply fails the CPU reads the word at that hexadecimal address",
)
.in_part();

/// A start-up of a cut that is cut itself.
pub const CUT_START_UP: OptionSpec = OptionSpec::value(
    "--cut-start-up",
    "N",
    "after the reset the supply fails again, when N stores of the start-up are done, or all where \
     it has fewer; a reset of the same kind follows. It may be given several times.",
)
.several()
.in_part();

/// The next cut.
pub const THEN: OptionSpec = OptionSpec::part(
    "--then",
    "PLACE KIND [MASK] [OPTION..]",
    "the update is begun again, and the supply fails again, with --read and --cut-start-up of this \
     cut alone. It may be given several times. Cuts are left out once the new bank runs.",
);

/// One cut of an update.
pub struct Cut {
    pub place: u32,
    pub kind: Kind,
    pub mask: [u32; 4],
    /// The address that the CPU reads just before.
    pub read: Option<u32>,
    /// After how many stores each start-up is cut before one is completed.
    pub start_ups: Vec<u32>,
}

/// The sign's sizes and its cuts, at least one.
pub fn take_cuts(mut arguments: Arguments) -> Result<(Geometry, Vec<Cut>), Failure> {
    let parts = arguments.further_parts();
    let geometry = arguments.geometry()?;
    let mut cuts = vec![take_cut(arguments)?];
    for part in parts {
        cuts.push(take_cut(part)?);
    }
    Ok((geometry, cuts))
}

/// "PLACE KIND [MASK]" with its options, and nothing after it.
fn take_cut(mut arguments: Arguments) -> Result<Cut, Failure> {
    let read = arguments.value_form(&READ, "a hexadecimal address", hexadecimal)?;
    let start_ups = arguments.value_forms(&CUT_START_UP, DECIMAL_WORDS, decimal)?;
    let cut = Cut {
        place: arguments.number("PLACE")?,
        kind: take_kind(&mut arguments)?,
        mask: take_mask(&mut arguments)?,
        read,
        start_ups,
    };
    arguments.end()?;
    Ok(cut)
}
