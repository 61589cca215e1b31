//! Calls that play and write a service script: records of 8 bytes, and, where it is played, a line of output for each.

use crate::{ffi, Decline, Device, Geometry};

/// What a play leaves beside the banks and the buffer.
#[derive(Clone, Copy, Debug, PartialEq, Eq, Hash)]
pub struct Played {
    /// The device afterwards.
    pub device: Device,
    /// The bytes of the whole output, however short the buffer.
    pub bytes: usize,
}

/// Plays a script.
///
/// The buffer gets as much of the front of the output as fits; bytes past the output keep their contents.
///
/// # Errors
///
/// - [`Decline::Geometry`]: Q, B or P is out of range.
/// - [`Decline::Length`]: a bank has another length than [`Geometry::bank_words`], or the SRAM more than 16,384 words.
/// - [`Decline::Device`]: the device record is impossible.
/// - [`Decline::Script`]: a length that isn't a multiple of 8, an unknown record, or an unused byte that is not 0.
pub fn play(
    geometry: Geometry,
    device: Device,
    one: &mut [u32],
    two: &mut [u32],
    sram: &[u32],
    script: &[u8],
    buffer: &mut [u8],
) -> Result<Played, Decline> {
    let answer = ffi::play(geometry, device, one, two, sram, script, buffer);
    Decline::judge(answer.decline)?;
    Ok(Played {
        device: answer.device,
        bytes: answer.bytes,
    })
}

/// The bytes of the whole output of such a play. It plays nothing.
///
/// # Errors
///
/// - [`Decline::Geometry`]: Q, B or P is out of range.
/// - [`Decline::Length`]: a bank has another length than [`Geometry::bank_words`], or the SRAM more than 16,384 words.
/// - [`Decline::Device`]: the device record is impossible.
/// - [`Decline::Script`]: a length that isn't a multiple of 8, an unknown record, or an unused byte that is not 0.
pub fn play_length(
    geometry: Geometry,
    device: Device,
    one: &[u32],
    two: &[u32],
    sram: &[u32],
    script: &[u8],
) -> Result<usize, Decline> {
    let answer = ffi::play_length(geometry, device, one, two, sram, script);
    Decline::judge(answer.decline)?;
    Ok(answer.bytes)
}

/// Writes a whole update as a script, from the buffer's first byte on; gives the number of its records, which is the update's total.
///
/// Each action of the update is a record, in order; all of them have [`Geometry::script_bytes`] bytes. Bytes past the last record keep
/// their contents.
///
/// On the same device and banks the play of the script is the update: each record answers 0, and after `i` records stands what `i` turns
/// leave. So all that is proved of a supply that fails during an update holds while the script is played.
///
/// What is written depends on the geometry, the image and T alone, the low half of the sequence word of the bank on the lower alias. One
/// script serves every sign whose update start is accepted and whose T is the same. A play checks none of the start's conditions: on any
/// other sign nothing is promised of it, so ask [`update_start`](crate::update_start) there before the play.
///
/// ```
/// use yohrundel::{play, write_script, Decline, Device, Geometry};
///
/// fn main() -> Result<(), Decline> {
///     let sign = Geometry { q: 1, b: 1, p: 1 };
///     let (mut one, mut two, image) = ([7; 64], [!0; 64], [9; 64]);
///     let sequence = sign.sequence_index()?;
///     one[sequence] = 0xFFFE_0001;
///     let mut script = vec![0; sign.script_bytes()?];
///     let records = write_script(sign, Device::power_on(), &one, &two, &image, &mut script)?;
///     assert_eq!((records, script.len()), (252, 8 * 252));
///     play(sign, Device::power_on(), &mut one, &mut two, &[], &script, &mut [])?;
///     assert_eq!((two[0], two[sequence]), (9, 0xFFFD_0002));
///     Ok(())
/// }
/// ```
///
/// # Errors
///
/// - [`Decline::Geometry`]: Q, B or P is out of range.
/// - [`Decline::Length`]: a bank or the image has another length than [`Geometry::bank_words`].
/// - [`Decline::Device`]: the device record is impossible.
/// - [`Decline::Running`]: an operation runs.
/// - [`Decline::Sequence`]: the lower-alias bank's sequence is invalid, a reset would choose the other bank, PFSWAP differs from BFSWAP, or
///   the other bank's sequence word is invalid with no bit position at 1 in both halves.
/// - [`Decline::LastSequence`]: T is 65,535.
/// - [`Decline::Protection`]: UBWPULOCK is 0 or PWP at least P×128×Q.
/// - [`Decline::ScriptBuffer`]: the buffer is shorter than the script.
pub fn write_script(
    geometry: Geometry,
    device: Device,
    one: &[u32],
    two: &[u32],
    image: &[u32],
    buffer: &mut [u8],
) -> Result<u32, Decline> {
    let answer = ffi::write_script(geometry, device, one, two, image, buffer);
    Decline::judge(answer.decline)?;
    Ok(answer.records)
}
