//! Service scripts that drive the controller, and damaged ones.

use crate::device::*;
use crate::geometry::{Geometry, LOWER_BOOT, LOWER_PROGRAM, UPPER_BOOT};
use crate::random::Random;
use crate::script::Record;
use crate::store::{CLEAR, KEYS, PLAIN, SET};

use super::devices;

const GEOMETRY: Geometry = Geometry {
    row_quads: 1,
    boot_pages: 1,
    program_pages: 1,
};

/// The bytes of one script; damaged where asked, else in one script of eight.
pub fn script(seed: u64, damaged: bool) -> Vec<u8> {
    let mut random = Random::new(seed);
    let mut records = Vec::new();
    for _ in 0..random.between(1, 40) {
        part(&mut random, &GEOMETRY, &mut records);
    }
    let mut bytes: Vec<u8> = records.iter().flat_map(Record::bytes).collect();
    if damaged || random.one_in(8) {
        damage(&mut random, &mut bytes);
    }
    bytes
}

pub(super) fn store(records: &mut Vec<Record>, register: usize, form: u32, value: u32) {
    let (register, form) = (register as u8, form as u8);
    records.push(Record::Store {
        register,
        form,
        value,
    });
}

pub(super) fn keys(records: &mut Vec<Record>) {
    for key in KEYS {
        store(records, NVMKEY, PLAIN, key);
    }
}

/// Some records that belong together.
pub(super) fn part(random: &mut Random, geometry: &Geometry, records: &mut Vec<Record>) {
    match random.below(10) {
        0..=4 => operation(random, geometry, records),
        5 => clear_errors(random, records),
        6 => protection(random, records),
        7 => swap(random, records),
        8 => records.push(Record::Reset {
            kind: random.below(3) as u8,
        }),
        _ => any_record(random, records),
    }
}

/// A launch and its steps, at times too few or too many.
fn operation(random: &mut Random, geometry: &Geometry, records: &mut Vec<Record>) {
    let nvmop = if random.one_in(10) {
        random.below(16)
    } else {
        random.between(2, 7)
    };
    let address = target(random, geometry);
    store(records, NVMCON, CLEAR, WREN);
    store(records, NVMADDR, PLAIN, address);
    if nvmop == 2 {
        for word in 0..4 {
            store(records, NVMDATA0 + word, PLAIN, random.edge_word());
        }
    }
    store(records, NVMCON, PLAIN, nvmop);
    store(records, NVMCON, SET, WREN);
    keys(records);
    if random.one_in(12) {
        any_record(random, records);
    }
    let plain = random.one_in(6);
    store(records, NVMCON, if plain { PLAIN } else { SET }, WR);
    let loading = random.one_in(4);
    for _ in 0..steps(random, geometry, nvmop) {
        if loading {
            load(random, geometry, records);
        }
        records.push(Record::Step);
    }
}

/// A store to NVMADDR, NVMDATA0 to 3 or NVMSRCADDR while the operation runs.
fn load(random: &mut Random, geometry: &Geometry, records: &mut Vec<Record>) {
    let register = random.between(NVMADDR as u32, NVMSRCADDR as u32) as usize;
    let value = if register == NVMADDR {
        target(random, geometry)
    } else {
        random.edge_word()
    };
    store(records, register, random.below(4), value);
}

fn target(random: &mut Random, geometry: &Geometry) -> u32 {
    match random.below(4) {
        0 => devices::address(random, geometry),
        1 => random.pick(&[LOWER_PROGRAM, LOWER_PROGRAM + 0x80, LOWER_BOOT, UPPER_BOOT]),
        2 => random.pick(&[LOWER_BOOT, UPPER_BOOT]) + 0x70,
        _ => devices::inside_address(random, geometry),
    }
}

fn steps(random: &mut Random, geometry: &Geometry, nvmop: u32) -> u32 {
    let length = match nvmop {
        2 => 1,
        3 => geometry.row_quads,
        4..=6 => 8,
        7 => 16,
        _ => 0,
    };
    match random.below(6) {
        0 => length + random.below(2),
        1 => random.below(length + 1),
        _ => length,
    }
}

/// NVMOP 0 clears WRERR and LVDERR.
fn clear_errors(random: &mut Random, records: &mut Vec<Record>) {
    store(records, NVMCON, CLEAR, WREN);
    store(records, NVMCON, PLAIN, 0);
    if !random.one_in(6) {
        store(records, NVMCON, SET, WREN);
    }
    keys(records);
    store(records, NVMCON, SET, WR);
}

fn protection(random: &mut Random, records: &mut Vec<Record>) {
    let boot = random.one_in(2);
    if !random.one_in(5) {
        keys(records);
    }
    let form = random.below(4);
    if boot {
        let value = random.pick(&[UBWP, LBWP, LBWP | UBWP, UBWPULOCK, LBWPULOCK, 0x9F9F]);
        store(records, NVMBWP, form, value);
    } else {
        let value = random.pick(&[0, 1, 0x7F, 0x80, 0xFF, PWPULOCK, PWPULOCK | 0x80]);
        store(records, NVMPWP, form, value);
    }
}

fn swap(random: &mut Random, records: &mut Vec<Record>) {
    if random.one_in(4) {
        store(
            records,
            NVMCON2,
            random.below(4),
            random.pick(&[0, 0x40, 0x80, 0xC0]),
        );
        return;
    }
    if !random.one_in(4) {
        store(records, NVMCON, CLEAR, WREN);
    }
    keys(records);
    store(
        records,
        NVMCON,
        random.below(4),
        random.pick(&[0x40, 0x80, 0xC0]),
    );
}

/// Any record that decline 14 takes.
fn any_record(random: &mut Random, records: &mut Vec<Record>) {
    match random.below(8) {
        0 => records.push(Record::Step),
        1 => records.push(Record::Reset {
            kind: random.below(3) as u8,
        }),
        2 => store(records, NVMKEY, random.below(4), random.pick(&KEYS)),
        _ => {
            let register = random.below(11) as usize;
            store(records, register, random.below(4), random.edge_word());
        }
    }
}

/// Makes decline 14 apply.
pub(super) fn damage(random: &mut Random, bytes: &mut Vec<u8>) {
    let record = 8 * random.below(bytes.len() as u32 / 8) as usize;
    let any = random.between(1, 255) as u8;
    match random.below(6) {
        0 => {
            let cut = bytes.len() - random.between(1, 7) as usize;
            bytes.truncate(cut);
        }
        1 => bytes[record] = random.between(3, 255) as u8,
        2 => bytes[record + 3] = any,
        3 => bytes[record..record + 3].copy_from_slice(&[0, random.between(11, 255) as u8, 0]),
        4 => bytes[record..record + 3].copy_from_slice(&[0, 0, random.between(4, 255) as u8]),
        _ => {
            let kind = random.between(1, 2) as u8;
            bytes[record..record + 8].copy_from_slice(&[kind, 0, 0, 0, 0, 0, 0, any]);
        }
    }
}
