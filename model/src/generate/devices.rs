//! Geometries, addresses and device records.

use crate::device::*;
use crate::geometry::{Geometry, Kind, Side, MOST_PROGRAM_PAGES, ROW_QUADS};
use crate::operation::{judge, Judgement};
use crate::random::Random;

/// The most steps that a generated flash read waits for.
const MOST_STEPS: u32 = 256;

/// A geometry whose banks have at most `max_words` words, or the smallest one.
pub fn geometry(random: &mut Random, max_words: u32) -> Geometry {
    let fitting = ROW_QUADS.iter().filter(|quads| 64 * **quads <= max_words);
    let fitting: Vec<u32> = fitting.copied().collect();
    if fitting.is_empty() {
        return Geometry {
            row_quads: 1,
            boot_pages: 1,
            program_pages: 1,
        };
    }
    let row_quads = random.pick(&fitting);
    let pages = max_words / (32 * row_quads);
    let boot_pages = random.between(1, 5.min(pages - 1));
    let most = MOST_PROGRAM_PAGES.min(pages - boot_pages);
    let program_pages = match random.below(4) {
        0 => most,
        1 => random.between(1, most),
        _ => random.between(1, 4.min(most)),
    };
    Geometry {
        row_quads,
        boot_pages,
        program_pages,
    }
}

/// Numbers that decline 1 refuses.
pub fn refused_numbers(random: &mut Random, geometry: &Geometry) -> [u32; 3] {
    let mut numbers = geometry.numbers();
    let row = random.below(3) as usize;
    numbers[row] = match row {
        0 => random.pick(&[0, 3, 5, 6, 7, 9, 127, 129, 256, 0x8000_0000, 0xFFFF_FFFF]),
        1 => random.pick(&[0, 6, 7, 64, 65_536, 0xFFFF_FFFF]),
        _ => random.pick(&[0, 129, 130, 256, 65_536, 0xFFFF_FFFF]),
    };
    if random.one_in(6) {
        numbers[random.below(3) as usize] = random.edge_word();
        numbers[row] = 0;
    }
    numbers
}

fn window(random: &mut Random) -> (Kind, Side) {
    let kind = random.pick(&[Kind::Boot, Kind::Program]);
    (kind, random.pick(&[Side::Lower, Side::Upper]))
}

/// An address in one of the four windows.
pub fn inside_address(random: &mut Random, geometry: &Geometry) -> u32 {
    let (kind, side) = window(random);
    let start = geometry.window_start(kind, side);
    let bytes = geometry.window_bytes(kind);
    let page = geometry.page_bytes();
    let offset = match random.below(5) {
        0 => random.pick(&[0, 1, 4, 15, 16]),
        1 => bytes - random.pick(&[1, 4, 5, 16, 17]),
        2 => random.below(bytes / page) * page,
        3 => random.below(bytes / page) * page + page - random.pick(&[1, 4, 16]),
        _ => random.below(bytes),
    };
    start + offset
}

/// An address inside, at the edge of, or far from the windows.
pub fn address(random: &mut Random, geometry: &Geometry) -> u32 {
    let (kind, side) = window(random);
    let start = geometry.window_start(kind, side);
    let end = start + geometry.window_bytes(kind);
    match random.below(8) {
        0 => start - random.pick(&[1, 4, 16]),
        1 => end + random.pick(&[0, 1, 3, 4, 16]),
        2 => random.edge_word(),
        _ => inside_address(random, geometry),
    }
}

/// The field PWP near the offsets of pages.
pub fn pwp(random: &mut Random, geometry: &Geometry) -> u32 {
    let page = geometry.page_bytes();
    let region = geometry.region_bytes();
    let value = match random.below(8) {
        0..=2 => 0,
        3 => random.pick(&[1, 2, 127, PWP]),
        4 => random.below(2 * geometry.program_pages + 1) * page,
        5 => random.between(1, 2 * geometry.program_pages) * page - 1,
        6 => random.pick(&[
            region - 1,
            region,
            region + 1,
            2 * region - page,
            2 * region,
        ]),
        _ => random.word(),
    };
    value & PWP
}

fn nvmpwp(random: &mut Random, geometry: &Geometry) -> u32 {
    let lock = if random.one_in(3) { 0 } else { PWPULOCK };
    lock | pwp(random, geometry)
}

fn nvmbwp(random: &mut Random) -> u32 {
    let value = match random.below(4) {
        0 => RESETS[NVMBWP],
        1 => RESETS[NVMBWP] & !(LBWP | UBWP),
        _ => random.word() & MASKS[NVMBWP],
    };
    value | BWP_ALWAYS
}

fn nvmcon2(random: &mut Random) -> u32 {
    let value = random.word() & MASKS[NVMCON2];
    match random.below(4) {
        0 => RESETS[NVMCON2],
        1 => value,
        2 => value | SWAPLOCK,
        _ => value & !SWAPLOCK,
    }
}

fn source(random: &mut Random) -> u32 {
    match random.below(6) {
        0..=2 => 4 * random.below(12),
        3 => random.between(1, 64),
        4 => 65_536 - random.pick(&[0, 3, 4, 16, 17]),
        _ => random.pick(&[0xFFFF_FFF0, 0xFFFF_FFFC, 0xFFFF_FFFF, 0x8000_0000]),
    }
}

/// A device with WR = 0.
pub fn idle(random: &mut Random, geometry: &Geometry) -> Device {
    let mut device = Device::reset_values();
    device.registers[NVMCON] = random.word() & MASKS[NVMCON] & !WR;
    if random.one_in(2) {
        device.clear_con(WRERR | LVDERR);
    }
    device.registers[NVMADDR] = address(random, geometry);
    for word in 0..4 {
        device.registers[NVMDATA0 + word] = random.edge_word();
    }
    device.registers[NVMSRCADDR] = source(random);
    device.registers[NVMPWP] = nvmpwp(random, geometry);
    device.registers[NVMBWP] = nvmbwp(random);
    device.registers[NVMCON2] = nvmcon2(random);
    device.key_step = random.pick(&[0, 1, 2, 3, 3, 3]);
    device
}

/// A device with WR = 0 on which a store of WR launches.
pub fn launching(random: &mut Random, geometry: &Geometry) -> Device {
    let mut device = idle(random, geometry);
    device.set_con(WREN);
    device.key_step = 3;
    if !random.one_in(6) {
        let nvmop = random.between(2, 7);
        device.clear_con(NVMOP | WRERR | LVDERR);
        device.set_con(nvmop);
    }
    device
}

/// A possible device with WR = 1.
pub fn running(random: &mut Random, geometry: &Geometry) -> Device {
    let nvmop = random.between(2, 7);
    running_operation(random, geometry, nvmop)
}

pub fn running_operation(random: &mut Random, geometry: &Geometry, nvmop: u32) -> Device {
    let mut device = idle(random, geometry);
    device.clear_con(NVMOP | LVDERR);
    device.set_con(nvmop | WR | WRERR);
    if nvmop <= 4 || random.one_in(2) {
        device.registers[NVMADDR] = inside_address(random, geometry);
    }
    device.key_step = 0;
    device.launched = device.loaded();
    if judge(geometry, &device, device.launched.address) == Judgement::Failure {
        device.registers[NVMPWP] &= !PWP;
    }
    let length = operation_length(geometry, &device);
    device.step_number = match random.below(4) {
        0 => 0,
        1 => length - 1,
        2 => length.saturating_sub(2),
        _ => random.below(length),
    };
    load_since(random, geometry, &mut device);
    device
}

/// Some of the six registers stored to since the launch; in one device of two none.
pub fn load_since(random: &mut Random, geometry: &Geometry, device: &mut Device) {
    match random.below(6) {
        0..=2 => {}
        3 => device.registers[NVMADDR] = address(random, geometry),
        4 => {
            let row = random.between(NVMADDR as u32, NVMSRCADDR as u32) as usize;
            device.registers[row] = random.edge_word();
        }
        _ => {
            device.registers[NVMADDR] = address(random, geometry);
            for word in 0..4 {
                device.registers[NVMDATA0 + word] = random.edge_word();
            }
            device.registers[NVMSRCADDR] = source(random);
        }
    }
}

/// Few steps are left of a long operation, so that what a read that waits changes fits a line.
pub fn near_the_end(random: &mut Random, geometry: &Geometry, device: &mut Device) {
    if !device.running() {
        return;
    }
    let length = operation_length(geometry, device);
    if length - device.step_number > MOST_STEPS {
        device.step_number = length - random.between(1, MOST_STEPS);
    }
}

fn operation_length(geometry: &Geometry, device: &Device) -> u32 {
    match judge(geometry, device, device.launched.address) {
        Judgement::Steps(length) => length,
        _ => 1,
    }
}

/// A device that decline 3 refuses, most often for one reason alone.
pub fn impossible(random: &mut Random, geometry: &Geometry) -> Device {
    loop {
        let device = if random.one_in(2) {
            spoiled_idle(random, geometry)
        } else {
            spoiled_running(random, geometry)
        };
        if !possible(geometry, &device) {
            return device;
        }
    }
}

fn spoiled_idle(random: &mut Random, geometry: &Geometry) -> Device {
    let mut device = idle(random, geometry);
    match random.below(8) {
        0 => {
            let row = random.pick(&[NVMCON, NVMPWP, NVMBWP, NVMCON2]);
            device.registers[row] |= 1 << random.below(32);
        }
        1 => device.registers[NVMBWP] &= !BWP_ALWAYS,
        2 => device.registers[NVMKEY] = random.edge_word(),
        3 => device.key_step = random.pick(&[4, 5, 0xFFFF_FFFF]),
        4 => device.step_number = random.pick(&[1, 2, 8, 0xFFFF_FFFF]),
        5 => spoil_launched(random, &mut device.launched),
        6 => device.launched = device.loaded(),
        _ => {
            for row in 0..REGISTERS {
                device.registers[row] = random.word();
            }
        }
    }
    device
}

/// One of the six gets a word.
fn spoil_launched(random: &mut Random, launched: &mut Operands) {
    let word = random.edge_word();
    match random.below(3) {
        0 => launched.address = word,
        1 => launched.data[random.below(4) as usize] = word,
        _ => launched.source = word,
    }
}

fn spoiled_running(random: &mut Random, geometry: &Geometry) -> Device {
    let mut device = running(random, geometry);
    let length = operation_length(geometry, &device);
    match random.below(9) {
        0 => device.key_step = random.between(1, 3),
        1 => device.clear_con(WRERR),
        2 => device.set_con(LVDERR),
        3 => {
            device.clear_con(NVMOP);
            device.set_con(random.pick(&[0, 1, 8, 9, 10, 11, 12, 13, 14, 15]));
        }
        4 => device.step_number = length + random.pick(&[0, 1, 2]),
        5 => device.step_number = 0xFFFF_FFFF - random.below(2),
        6 => device.registers[NVMPWP] |= random.between(1, PWP),
        7 => device.launched = Operands::NONE,
        _ => device.launched.address = random.edge_word(),
    }
    device
}

/// Possible most often, idle or running.
pub fn device(random: &mut Random, geometry: &Geometry) -> Device {
    match random.below(12) {
        0 => impossible(random, geometry),
        1..=6 => idle(random, geometry),
        _ => running(random, geometry),
    }
}
