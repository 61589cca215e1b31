//! A start-up as the stores that it is made of, of which the supply may cut the last ones.

use crate::nvmcon::{BFSWAP, PFSWAP};
use crate::{form, register, start_up, store, Decline, Device, Geometry};

/// Register, form and value of each store; those before the last are made where BFSWAP = 1.
const STORES: [(u32, u32, u32); 5] = [
    (register::NVMKEY, form::PLAIN, 0),
    (register::NVMKEY, form::PLAIN, 0xAA99_6655),
    (register::NVMKEY, form::PLAIN, 0x5566_99AA),
    (register::NVMCON, form::SET, PFSWAP),
    (register::NVMCON2, form::SET, 0xC0),
];

/// Register, form and value of each store of a device's start-up: "if BFSWAP = 1, the three key stores and NVMCON set 0x80; always then
/// NVMCON2 set 0xC0".
pub fn start_up_stores(device: &Device) -> &'static [(u32, u32, u32)] {
    if device.nvmcon & BFSWAP != 0 {
        &STORES
    } else {
        &STORES[4..]
    }
}

/// A start-up that the supply cuts: its first stores, all where it has fewer.
///
/// ```
/// use yohrundel::{cut_start_up, nvmcon, start_up, start_up_stores, Device, Geometry};
///
/// let sign = Geometry { q: 1, b: 1, p: 1 };
/// let mut device = Device::power_on();
/// device.nvmcon = nvmcon::BFSWAP;
/// assert_eq!(start_up_stores(&device).len(), 5);
/// assert_eq!(cut_start_up(sign, device, 3).unwrap().keystep, 3);
/// assert_eq!(cut_start_up(sign, device, 5), start_up(sign, device));
/// ```
///
/// # Errors
///
/// - [`Decline::Geometry`]: Q, B or P is out of range.
/// - [`Decline::Device`]: the device record is impossible.
/// - [`Decline::Running`]: an operation runs.
pub fn cut_start_up(geometry: Geometry, device: Device, stores: usize) -> Result<Device, Decline> {
    start_up(geometry, device)?;
    let mut made = start_up_stores(&device).iter().take(stores);
    made.try_fold(device, |after, (register, form, value)| {
        Ok(store(geometry, after, *register, *form, *value)?.device)
    })
}
