//! Operations that run: what they were launched with, the banks they write on, and walks that launch them.

use crate::cases::{Call, Case};
use crate::device::*;
use crate::geometry::{Geometry, ALL_ONES};
use crate::list::List;
use crate::store::{KEYS, PLAIN, SET};

use super::super::walks::Moves;
use super::parts::*;

/// The words of SRAM that a row is programmed from: each names its index.
pub fn sram() -> Vec<u32> {
    (0..16).map(|index| 0x1248_0000 | index).collect()
}

/// A running operation with data and a source that no register of `later` holds.
pub fn launched(nvmop: u32, address: u32, step: u32) -> Device {
    let device = with_register(running(nvmop, address, step), NVMSRCADDR, 8);
    with_launched(device, device.loaded())
}

/// The device after other values were stored to the six registers.
pub fn then_loaded(device: Device, later: Operands) -> Device {
    let mut device = device;
    device.registers[NVMADDR..=NVMSRCADDR].copy_from_slice(&later.numbers());
    device
}

/// Operands with another address, and with data and a source of their own.
pub fn later(address: u32) -> Operands {
    Operands {
        address,
        data: [0xAAAA_0001, 0xAAAA_0002, 0xAAAA_0003, 0xAAAA_0004],
        source: 24,
    }
}

/// The moves on a sign of blank banks; boot pages are free.
pub fn walk(geometry: &Geometry, fill: u32, moves: &Moves) -> Case {
    let device = with_register(idle(), NVMBWP, UNPROTECTED);
    let mut case = case(Call::Walk, geometry, device);
    lists(&mut case, &filled(geometry, fill));
    case.lists.push(List::from_words(&sram()));
    case.numbers = moves.numbers();
    case
}

/// The keys and NVMCON set 0x8000.
pub fn launch_now(moves: &mut Moves) {
    for key in KEYS {
        moves.store(NVMKEY, PLAIN, key);
    }
    moves.store(NVMCON, SET, WR);
}

/// NVMADDR, NVMSRCADDR and NVMDATA0 to 3, by a form.
pub fn load(moves: &mut Moves, form: u32, address: u32, word: u32) {
    moves.store(NVMADDR, form, address);
    moves.store(NVMSRCADDR, form, word % 64);
    for number in 0..4 {
        moves.store(NVMDATA0 + number, form, word + number as u32);
    }
}

/// Loads, NVMOP, WREN, keys, launch.
pub fn begin(moves: &mut Moves, nvmop: u32, address: u32) {
    load(moves, PLAIN, address, 0x0001_0000);
    moves.store(NVMCON, PLAIN, nvmop);
    moves.store(NVMCON, SET, WREN);
    launch_now(moves);
}

/// The word of a bank on which an operation of NVMOP writes.
pub fn fill(nvmop: u32) -> u32 {
    if nvmop < 4 {
        ALL_ONES
    } else {
        0x1234_0000
    }
}

/// Banks on which an operation of NVMOP writes.
pub fn ground(geometry: &Geometry, nvmop: u32) -> Pair {
    filled(geometry, fill(nvmop))
}
