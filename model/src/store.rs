//! Stores, launch, register read and start-up.

use crate::device::*;
use crate::geometry::Geometry;
use crate::operation::{judge, Judgement};
use crate::{Answer, Refusal};

pub const PLAIN: u32 = 0;
pub const CLEAR: u32 = 1;
pub const SET: u32 = 2;
pub const INVERT: u32 = 3;

/// The three key values in their order.
pub const KEYS: [u32; 3] = [0, 0xAA99_6655, 0x5566_99AA];

/// A store of the public call; true beside the device is an event.
pub fn store(
    numbers: [u32; 3],
    device: Device,
    register: u32,
    form: u32,
    value: u32,
) -> Answer<(Device, bool)> {
    let geometry = Geometry::new(numbers)?;
    check_device(&geometry, &device)?;
    check_register(register)?;
    let key_form = register as usize == NVMKEY && form != PLAIN;
    if form > INVERT || key_form {
        return Err(Refusal::Register);
    }
    check_store(&device, register)?;
    Ok(apply_store(&geometry, device, register, form, value))
}

fn check_register(register: u32) -> Answer<()> {
    if register as usize >= REGISTERS {
        return Err(Refusal::Register);
    }
    Ok(())
}

/// Decline 5 of a store. W-209: "stores to NVMADDR, NVMDATA0 to 3 and NVMSRCADDR are accepted".
pub fn check_store(device: &Device, register: u32) -> Answer<()> {
    if (NVMADDR..=NVMSRCADDR).contains(&(register as usize)) {
        return Ok(());
    }
    check_idle(device)
}

/// Decline 5: "with WR = 1".
pub fn check_idle(device: &Device) -> Answer<()> {
    if device.running() {
        return Err(Refusal::Running);
    }
    Ok(())
}

/// An accepted store.
pub fn apply_store(
    geometry: &Geometry,
    device: Device,
    register: u32,
    form: u32,
    value: u32,
) -> (Device, bool) {
    let row = register as usize;
    if row == NVMKEY {
        return (store_key(device, value), false);
    }
    let wanted = wanted_value(device.registers[row], form, value) & MASKS[row];
    let (mut after, event) = match row {
        NVMCON => store_nvmcon(geometry, &device, wanted),
        NVMPWP => (
            take(&device, row, wanted, pwp_fields(&device, wanted)),
            false,
        ),
        NVMBWP => (
            take(&device, row, wanted, bwp_fields(&device, wanted)),
            false,
        ),
        NVMCON2 => (take(&device, row, wanted, con2_fields(&device)), false),
        _ => (take(&device, row, wanted, MASKS[row]), false),
    };
    // "Any other accepted store ... sets it to 0 afterwards"
    after.key_step = 0;
    (after, event)
}

/// "The form gives a wanted value".
fn wanted_value(old: u32, form: u32, value: u32) -> u32 {
    match form {
        CLEAR => old & !value,
        SET => old | value,
        INVERT => old ^ value,
        _ => value,
    }
}

/// The fields named take the wanted value, the others stay.
fn take(device: &Device, row: usize, wanted: u32, fields: u32) -> Device {
    let mut after = *device;
    after.registers[row] = (device.registers[row] & !fields) | (wanted & fields);
    after
}

/// The key: in turn it rises, out of turn it goes to 1 for 0, else to 0.
fn store_key(device: Device, value: u32) -> Device {
    let mut after = device;
    let step = device.key_step;
    after.key_step = if step < 3 && value == KEYS[step as usize] {
        step + 1
    } else if value == 0 {
        1
    } else {
        0
    };
    after
}

/// "key open; lock bits only fall; the fields under a lock bit need it to be 1".
fn pwp_fields(device: &Device, wanted: u32) -> u32 {
    if !device.key_open() {
        return 0;
    }
    locked_fields(device.registers[NVMPWP], wanted, PWPULOCK, PWP)
}

fn bwp_fields(device: &Device, wanted: u32) -> u32 {
    if !device.key_open() {
        return 0;
    }
    let old = device.registers[NVMBWP];
    locked_fields(old, wanted, LBWPULOCK, LBWP) | locked_fields(old, wanted, UBWPULOCK, UBWP)
}

/// The lock bit where it falls, and the fields where the lock bit was 1 before.
fn locked_fields(old: u32, wanted: u32, lock: u32, fields: u32) -> u32 {
    let mut taking = 0;
    if wanted & lock == 0 {
        taking |= lock;
    }
    if old & lock != 0 {
        taking |= fields;
    }
    taking
}

fn con2_fields(device: &Device) -> u32 {
    let mut taking = NVMERS | NVMRETRY;
    if device.key_open() {
        taking |= NVMWS | NVMLPRD | NVMCRD | NVMVRD;
    }
    // "SWAPLOCK needs SWAPLOCK other than 3"
    if device.registers[NVMCON2] & SWAPLOCK != SWAPLOCK {
        taking |= SWAPLOCK;
    }
    taking
}

/// Every condition is judged "on the state before the store".
fn store_nvmcon(geometry: &Geometry, device: &Device, wanted: u32) -> (Device, bool) {
    let enabled = device.con(WREN);
    let swap_free = device.registers[NVMCON2] & SWAPLOCK == 0;
    let mut taking = WREN;
    if !enabled {
        taking |= NVMOP;
    }
    if !enabled && swap_free && device.key_open() {
        taking |= PFSWAP | BFSWAP;
    }
    let after = take(device, NVMCON, wanted, taking);
    // "wanted 1 with WREN = 1 and key open launches"
    if wanted & WR != 0 && enabled && device.key_open() {
        return launch(geometry, after);
    }
    (after, false)
}

/// The launch, "In this order".
fn launch(geometry: &Geometry, device: Device) -> (Device, bool) {
    let mut after = device;
    if device.nvmop() == 0 {
        after.clear_con(WRERR | LVDERR);
        return (after, false);
    }
    if device.con(WRERR | LVDERR) {
        return (after, false);
    }
    match judge(geometry, &device, device.registers[NVMADDR]) {
        Judgement::NoLaunch => (after, false),
        Judgement::Failure => {
            after.set_con(WRERR);
            (after, true)
        }
        Judgement::Steps(_) => {
            after.set_con(WR | WRERR);
            after.step_number = 0;
            // W-209: "all six registers as they stood before the launching store, unrounded"
            after.launched = device.loaded();
            (after, false)
        }
    }
}

/// The value read, and the device with the key step 0.
pub fn register_read(numbers: [u32; 3], device: Device, register: u32) -> Answer<(u32, Device)> {
    let geometry = Geometry::new(numbers)?;
    check_device(&geometry, &device)?;
    check_register(register)?;
    let row = register as usize;
    let mut after = device;
    // W-203: "at key step 1 leaves the step at 1; at 2 or 3 it still closes the key"
    if after.key_step != 1 {
        after.key_step = 0;
    }
    Ok((device.registers[row] & MASKS[row], after))
}

/// Register, form and value of a start-up's stores: "if BFSWAP = 1, the three key stores and NVMCON set 0x80; always then NVMCON2
/// set 0xC0".
pub fn start_up_stores(device: &Device) -> Vec<(u32, u32, u32)> {
    let mut stores = Vec::new();
    if device.con(BFSWAP) {
        stores.extend(KEYS.map(|key| (NVMKEY as u32, PLAIN, key)));
        stores.push((NVMCON as u32, SET, 0x80));
    }
    stores.push((NVMCON2 as u32, SET, 0xC0));
    stores
}

/// A completed start-up.
pub fn start_up(numbers: [u32; 3], device: Device) -> Answer<Device> {
    cut_start_up(numbers, device, u32::MAX)
}

/// W-212: the first stores of a start-up, all where it has fewer; then the supply fails.
pub fn cut_start_up(numbers: [u32; 3], device: Device, count: u32) -> Answer<Device> {
    let geometry = Geometry::new(numbers)?;
    check_device(&geometry, &device)?;
    check_idle(&device)?;
    let stores = start_up_stores(&device).into_iter().take(count as usize);
    Ok(stores.fold(device, |after, (register, form, value)| {
        apply_store(&geometry, after, register, form, value).0
    }))
}
