//! Calls on a device and its banks, `one` and `two`.

use crate::{ffi, Decline, Device, Geometry, Reason};

/// What a step leaves beside the banks.
#[derive(Clone, Copy, Debug, PartialEq, Eq, Hash)]
pub struct Stepped {
    /// The device afterwards.
    pub device: Device,
    /// Whether there was an event.
    pub event: bool,
}

/// What a flash read gives and leaves beside the banks.
#[derive(Clone, Copy, Debug, PartialEq, Eq, Hash)]
pub struct FlashRead {
    /// The word at the address.
    pub word: u32,
    /// Whether the read waited, and so gave the event of the operation's end.
    pub event: bool,
    /// The device afterwards.
    pub device: Device,
}

/// The word at a byte address in one of the four windows.
///
/// Where the running operation targets the word's bank, by the address that it was launched with and not by NVMADDR, the read waits: it
/// first carries out the operation's remaining steps, each as [`step`] does, up to an abort if one comes, and changes the device and the
/// banks by them. The word is from the banks as they then are. Any other read changes nothing. Inside an update a turn whose step a read
/// has done is declined by [`Decline::Idle`].
///
/// # Errors
///
/// - [`Decline::Geometry`]: Q, B or P is out of range.
/// - [`Decline::Length`]: a bank has another length than [`Geometry::bank_words`], or the SRAM more than 16,384 words.
/// - [`Decline::Device`]: the device record is impossible.
/// - [`Decline::Address`]: the address is outside the four windows or not a multiple of 4.
pub fn flash_read(
    geometry: Geometry,
    device: Device,
    one: &mut [u32],
    two: &mut [u32],
    sram: &[u32],
    address: u32,
) -> Result<FlashRead, Decline> {
    let answer = ffi::flash_read(geometry, device, one, two, sram, address);
    Decline::judge(answer.decline)?;
    Ok(FlashRead {
        word: answer.word,
        event: answer.event,
        device: answer.device,
    })
}

/// The bank on the lower boot alias: the lent bank itself.
///
/// # Errors
///
/// - [`Decline::Geometry`]: Q, B or P is out of range.
/// - [`Decline::Length`]: a bank has another length than [`Geometry::bank_words`].
/// - [`Decline::Device`]: the device record is impossible.
pub fn lower_bank<'a>(
    geometry: Geometry,
    device: Device,
    one: &'a [u32],
    two: &'a [u32],
) -> Result<&'a [u32], Decline> {
    let answer = ffi::lower_bank(geometry, device, one, two);
    Decline::judge(answer.decline)?;
    let bank = if answer.bank == 1 { one } else { two };
    Ok(&bank[..answer.length])
}

/// A page of a bank as that part of it, by its number from 0 to N-1, boot pages first.
///
/// # Errors
///
/// - [`Decline::Geometry`]: Q, B or P is out of range.
/// - [`Decline::Length`]: the bank has another length than [`Geometry::bank_words`].
/// - [`Decline::Address`]: a page number of N or more.
pub fn page(geometry: Geometry, bank: &[u32], page: u32) -> Result<&[u32], Decline> {
    let answer = ffi::page(geometry, bank, page);
    Decline::judge(answer.decline)?;
    Ok(&bank[answer.offset..][..answer.length])
}

/// One step of the running operation, which does one quad, by the address, data and source that it was launched with.
///
/// # Errors
///
/// - [`Decline::Geometry`]: Q, B or P is out of range.
/// - [`Decline::Length`]: a bank has another length than [`Geometry::bank_words`], or the SRAM more than 16,384 words.
/// - [`Decline::Device`]: the device record is impossible.
/// - [`Decline::Idle`]: no operation runs.
pub fn step(
    geometry: Geometry,
    device: Device,
    one: &mut [u32],
    two: &mut [u32],
    sram: &[u32],
) -> Result<Stepped, Decline> {
    let answer = ffi::step(geometry, device, one, two, sram);
    Decline::judge(answer.decline)?;
    Ok(Stepped {
        device: answer.device,
        event: answer.event,
    })
}

/// What a reset leaves.
#[derive(Clone, Copy, Debug, PartialEq, Eq, Hash)]
pub struct Restarted {
    /// The device afterwards.
    pub device: Device,
    /// Why BFSWAP is as it is now.
    pub reason: Reason,
}

/// A reset of a kind of [`crate::reset_kind`].
///
/// While an operation runs it tears the quad of the next step: the mask chooses, bit by bit, intended (1), as it was launched, or old (0).
/// What was loaded since stays in the registers, but for a power-on. Then it sets BFSWAP by comparing the sequence words, and gives the
/// reason.
///
/// # Errors
///
/// - [`Decline::Geometry`]: Q, B or P is out of range.
/// - [`Decline::Length`]: a bank has another length than [`Geometry::bank_words`], or the SRAM more than 16,384 words.
/// - [`Decline::Device`]: the device record is impossible.
/// - [`Decline::ResetKind`]: a kind above 2.
pub fn reset(
    geometry: Geometry,
    device: Device,
    one: &mut [u32],
    two: &mut [u32],
    sram: &[u32],
    kind: u32,
    mask: [u32; 4],
) -> Result<Restarted, Decline> {
    let answer = ffi::reset(geometry, device, one, two, sram, kind, mask);
    Decline::judge(answer.decline)?;
    Ok(Restarted {
        device: answer.device,
        reason: Reason::of(answer.reason),
    })
}
