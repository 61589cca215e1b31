//! Calls of an update. The image is one bank long.

use crate::{ffi, Decline, Device, Geometry};

/// What an accepted update start gives.
#[derive(Clone, Copy, Debug, PartialEq, Eq, Hash)]
pub struct Started {
    /// The place of the first turn, which is 0.
    pub place: u32,
    /// The number of actions: 12 + 8×N + 112×N×Q.
    pub total: u32,
}

/// What a turn tells beside the device.
#[derive(Clone, Copy, Debug, PartialEq, Eq, Hash)]
pub struct TurnOutcome {
    /// The place of the next turn.
    pub place: u32,
    /// Whether the place is the total: nothing is left to do, and nothing was done.
    pub done: bool,
    /// Whether the action gave an event.
    pub event: bool,
}

/// What a turn leaves beside the banks.
#[derive(Clone, Copy, Debug, PartialEq, Eq, Hash)]
pub struct Turned {
    /// The device afterwards.
    pub device: Device,
    /// What the turn tells.
    pub outcome: TurnOutcome,
}

/// Whether an update may start, and how many actions it has. It changes nothing.
///
/// # Errors
///
/// - [`Decline::Geometry`]: Q, B or P is out of range.
/// - [`Decline::Length`]: a bank or the image has another length than [`Geometry::bank_words`].
/// - [`Decline::Device`]: the device record is impossible.
/// - [`Decline::Running`]: an operation runs.
/// - [`Decline::Sequence`]: the lower-alias bank's sequence is invalid, a reset would choose the other bank, PFSWAP differs from BFSWAP, or
///   the other bank's sequence word is invalid with no bit position at 1 in both halves.
/// - [`Decline::LastSequence`]: T is 65,535.
/// - [`Decline::Protection`]: UBWPULOCK is 0 or PWP at least P×128×Q.
pub fn update_start(
    geometry: Geometry,
    device: Device,
    one: &[u32],
    two: &[u32],
    image: &[u32],
) -> Result<Started, Decline> {
    let answer = ffi::update_start(geometry, device, one, two, image);
    Decline::judge(answer.decline)?;
    Ok(Started {
        place: answer.place,
        total: answer.total,
    })
}

/// One turn: the action of its place, one store or one step.
///
/// # Errors
///
/// - [`Decline::Geometry`]: Q, B or P is out of range.
/// - [`Decline::Length`]: a bank or the image has another length than [`Geometry::bank_words`], or the SRAM more than 16,384 words.
/// - [`Decline::Device`]: the device record is impossible.
/// - [`Decline::Running`]: the place's action is a store that the running operation does not allow.
/// - [`Decline::Idle`]: the place's action is a step, and no operation runs.
/// - [`Decline::Place`]: the place exceeds the total.
#[inline]
pub fn turn(
    geometry: Geometry,
    device: Device,
    one: &mut [u32],
    two: &mut [u32],
    image: &[u32],
    sram: &[u32],
    place: u32,
) -> Result<Turned, Decline> {
    let mut lent = device.by_words();
    let outcome = turn_lent(geometry, &mut lent, one, two, image, sram, place)?;
    let device = lent.by_words();
    Ok(Turned { device, outcome })
}

/// The same turn with the device lent and changed in place.
///
/// # Errors
///
/// - [`Decline::Geometry`]: Q, B or P is out of range.
/// - [`Decline::Length`]: a bank or the image has another length than [`Geometry::bank_words`], or the SRAM more than 16,384 words.
/// - [`Decline::Device`]: the device record is impossible.
/// - [`Decline::Running`]: the place's action is a store that the running operation does not allow.
/// - [`Decline::Idle`]: the place's action is a step, and no operation runs.
/// - [`Decline::Place`]: the place exceeds the total.
#[inline]
pub fn turn_lent(
    geometry: Geometry,
    device: &mut Device,
    one: &mut [u32],
    two: &mut [u32],
    image: &[u32],
    sram: &[u32],
    place: u32,
) -> Result<TurnOutcome, Decline> {
    outcome(ffi::turn_lent(
        geometry, device, one, two, image, sram, place,
    ))
}

#[inline]
fn outcome(answer: ffi::TurnOutcome) -> Result<TurnOutcome, Decline> {
    Decline::judge(answer.decline)?;
    Ok(TurnOutcome {
        place: answer.place,
        done: answer.done,
        event: answer.event,
    })
}
