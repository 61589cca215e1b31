//! The smallest script that shows a decline number.

use crate::{ffi, Decline, Device, Geometry};

/// The most records of a script that [`smallest`] takes.
pub const MOST_RECORDS: usize = 64;

/// What a script is played on. [`smallest`] changes nothing of it.
#[derive(Clone, Copy, Debug, PartialEq, Eq, Hash)]
pub struct Bench<'a> {
    /// The sizes of the sign.
    pub geometry: Geometry,
    /// Its device, with which every play begins.
    pub device: Device,
    /// Bank 1.
    pub one: &'a [u32],
    /// Bank 2.
    pub two: &'a [u32],
    /// The SRAM.
    pub sram: &'a [u32],
}

/// The smallest script that shows a number: drops the lowest record of a script without which its play still gives the number as an answer,
/// begins again from the top, and stops when none can go. Gives the number of records of the result.
///
/// The result is as long as the script; it gets the records that are left, in their order, and then zeros. Its play gives the number, and
/// without any one of its records it does not. It need not have the fewest records: two that undo each other both stay where one of them
/// alone would hide the number, though the play without both gives it too.
///
/// Each trial plays on the two scratch banks, as long as the banks of the bench, from the device and the contents of these. Afterwards the
/// scratch banks hold what the banks of the bench hold, also where the call is declined by [`Decline::NotShown`]: it is the one call that
/// changes lent memory when it is declined. By any other decline they keep their contents, and the result keeps its by every decline.
///
/// ```
/// use yohrundel::{smallest, Bench, Decline, Device, Geometry};
///
/// fn main() -> Result<(), Decline> {
///     let geometry = Geometry { q: 1, b: 1, p: 1 };
///     let (one, two) = ([!0; 64], [!0; 64]);
///     let device = Device::power_on();
///     let bench = Bench { geometry, device, one: &one, two: &two, sram: &[] };
///     // A power-on, a step, which is declined by 6 as no operation runs, and a store of 0 to NVMCON.
///     let mut script = [0; 24];
///     (script[0], script[8]) = (2, 1);
///     let (mut first, mut second, mut result) = ([0; 64], [0; 64], [9; 24]);
///     let records = smallest(bench, [&mut first, &mut second], &script, 6, &mut result)?;
///     assert_eq!((records, &result[..8]), (1, &script[8..16]));
///     assert_eq!((result[8..].iter().max(), first, second), (Some(&0), one, two));
///     Ok(())
/// }
/// ```
///
/// # Errors
///
/// - [`Decline::Geometry`]: Q, B or P is out of range.
/// - [`Decline::Length`]: a bank or scratch bank has another length than [`Geometry::bank_words`], the result another than the script, or
///   the SRAM more than 16,384 words.
/// - [`Decline::Device`]: the device record is impossible.
/// - [`Decline::Script`]: a length that isn't a multiple of 8, an unknown record, or an unused byte that is not 0.
/// - [`Decline::Records`]: the script has more than [`MOST_RECORDS`] records.
/// - [`Decline::NotShown`]: the play never gives the number. A record is answered by 0, 4, 5 or 6, and 0 counts as never given, so that any
///   number but 4, 5 and 6 is declined.
pub fn smallest(
    bench: Bench,
    scratch: [&mut [u32]; 2],
    script: &[u8],
    number: u32,
    result: &mut [u8],
) -> Result<u32, Decline> {
    let answer = ffi::smallest(bench, scratch, script, number, result);
    Decline::judge(answer.decline)?;
    Ok(answer.records)
}
