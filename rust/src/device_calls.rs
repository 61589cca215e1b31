//! Calls on a device alone.

use crate::{ffi, Decline, Device, Geometry};

/// What a store leaves.
#[derive(Clone, Copy, Debug, PartialEq, Eq, Hash)]
pub struct Stored {
    /// The device afterwards.
    pub device: Device,
    /// Whether there was an event.
    pub event: bool,
}

/// What a register read gives.
#[derive(Clone, Copy, Debug, PartialEq, Eq, Hash)]
pub struct RegisterRead {
    /// The register's value.
    pub value: u32,
    /// The device afterwards: as it was where its key step was 0 or 1; where that was 2 or 3, the key step is 0 and nothing else changed.
    pub device: Device,
}

/// Stores a value to a register in one of the forms of [`crate::form`].
///
/// While an operation runs, a store to NVMADDR, NVMDATA0 to 3 or NVMSRCADDR changes that register alone: the operation goes on by what it
/// was launched with, and the new value serves the next launch.
///
/// # Errors
///
/// - [`Decline::Geometry`]: Q, B or P is out of range.
/// - [`Decline::Device`]: the device record is impossible.
/// - [`Decline::Register`]: a register number above 10, a form above 3, or a form other than 0 for NVMKEY.
/// - [`Decline::Running`]: an operation runs, and the register is none of NVMADDR, NVMDATA0 to 3 and NVMSRCADDR.
pub fn store(
    geometry: Geometry,
    device: Device,
    register: u32,
    form: u32,
    value: u32,
) -> Result<Stored, Decline> {
    let answer = ffi::store(geometry, device, register, form, value);
    Decline::judge(answer.decline)?;
    Ok(Stored {
        device: answer.device,
        event: answer.event,
    })
}

/// Reads a register.
///
/// A probe may read beside an update while the key step is 0 or 1. A read at key step 2 or 3 closes the key, and the store that it was to
/// open for is lost: docs/POWER-FAIL.md, "A probe beside an update".
///
/// # Errors
///
/// - [`Decline::Geometry`]: Q, B or P is out of range.
/// - [`Decline::Device`]: the device record is impossible.
/// - [`Decline::Register`]: a register number above 10.
pub fn register_read(
    geometry: Geometry,
    device: Device,
    register: u32,
) -> Result<RegisterRead, Decline> {
    let answer = ffi::register_read(geometry, device, register);
    Decline::judge(answer.decline)?;
    Ok(RegisterRead {
        value: answer.value,
        device: answer.device,
    })
}

/// The start-up after a reset: "if BFSWAP = 1, the three key stores and NVMCON set 0x80; always then NVMCON2 set 0xC0".
///
/// # Errors
///
/// - [`Decline::Geometry`]: Q, B or P is out of range.
/// - [`Decline::Device`]: the device record is impossible.
/// - [`Decline::Running`]: an operation runs.
pub fn start_up(geometry: Geometry, device: Device) -> Result<Device, Decline> {
    let answer = ffi::start_up(geometry, device);
    Decline::judge(answer.decline)?;
    Ok(answer.device)
}
