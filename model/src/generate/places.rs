//! Places of an update, and states in the middle of one.

use crate::device::{Device, BFSWAP, NVMBWP, NVMPWP, PFSWAP, PWP, UBWPULOCK};
use crate::geometry::{Banks, Geometry, ALL_ONES};
use crate::random::Random;
use crate::sequence::word_of;
use crate::store::check_store;
use crate::update::{action, erase_actions, program_place, total, turn, Action};

use super::devices::idle;
use super::memory::{banks, image};

/// Turns run at most to reach a state.
pub const MOST_TURNS: u32 = 20_000;

/// A place at or near the edges of the list's blocks.
pub fn place(random: &mut Random, geometry: &Geometry) -> u32 {
    let total = total(geometry);
    let program = program_place(geometry);
    let each = erase_actions(geometry);
    let quads = (total - program) / 13;
    match random.below(9) {
        0 => random.below(13),
        1 => 12 + random.below(geometry.pages()) * each + random.below(9),
        2 => 12 + random.between(1, geometry.pages()) * each - random.between(1, 3),
        3 => program + 13 * random.below(quads) + random.below(13),
        4 => program + random.below(28) - 2,
        5 => total - random.between(1, 28),
        6 => total,
        7 => random.pick(&[total + 1, total + 13, 0x8000_0000, 0xFFFF_FFFF]),
        _ => random.below(total),
    }
}

/// A place whose action sets WR: of a page that is erased, or of a quad.
pub fn launch_place(random: &mut Random, geometry: &Geometry) -> u32 {
    let program = program_place(geometry);
    let quads = (total(geometry) - program) / 13;
    match random.below(2) {
        0 => 12 + random.below(geometry.pages()) * erase_actions(geometry) + 6,
        _ => program + 13 * random.below(quads) + 10,
    }
}

/// A place whose action is a step: of a page that is erased, of a quad, or of the sequence quad, the last.
pub fn step_place(random: &mut Random, geometry: &Geometry) -> u32 {
    let (program, last) = (program_place(geometry), total(geometry) - 2);
    let page = random.below(geometry.pages());
    match random.below(3) {
        0 => last,
        1 => last - 13 * random.below((last - program) / 13 + 1),
        _ => 12 + page * erase_actions(geometry) + 7 + random.below(geometry.page_quads()),
    }
}

/// A place whose action suits the device, where a few tries find one.
pub fn suiting_place(random: &mut Random, geometry: &Geometry, device: &Device) -> u32 {
    let blank = vec![0; geometry.bank_words() as usize];
    for _ in 0..16 {
        let place = place(random, geometry);
        if place >= total(geometry) {
            continue;
        }
        let suits = match action(geometry, 0, &blank, place) {
            Action::Step => device.running(),
            Action::Store { register, .. } => check_store(device, register).is_ok(),
        };
        if suits {
            return place;
        }
    }
    place(random, geometry)
}

/// Inputs that an update start accepts.
pub struct Start {
    pub device: Device,
    pub banks: [Vec<u32>; 2],
    pub image: Vec<u32>,
}

pub fn accepted_start(random: &mut Random, geometry: &Geometry) -> Start {
    let mut device = idle(random, geometry);
    let second = random.one_in(2);
    device.clear_con(PFSWAP | BFSWAP);
    if second {
        device.set_con(PFSWAP | BFSWAP);
    }
    device.registers[NVMBWP] |= UBWPULOCK;
    if device.registers[NVMPWP] & PWP >= geometry.region_bytes() {
        device.registers[NVMPWP] &= !PWP;
        device.registers[NVMPWP] |= geometry.region_bytes() - 1;
    }
    let low = match random.below(4) {
        0 => random.pick(&[1, 2, 65_533, 65_534]),
        _ => random.between(1, 65_534),
    } as u16;
    let own = word_of(low);
    let other = other_sequence(random, low);
    let pair = if second { [other, own] } else { [own, other] };
    let banks = banks(random, geometry, pair);
    let image = image(random, geometry);
    Start {
        device,
        banks,
        image,
    }
}

/// A word of the other bank that an update start takes beside a given T.
fn other_sequence(random: &mut Random, low: u16) -> u32 {
    match random.below(5) {
        0 => word_of(low - 1),
        1 => word_of(random.below(u32::from(low)) as u16),
        // a word torn on its way to all ones
        2 => word_of(random.word() as u16) | 0x0010_0010,
        _ => ALL_ONES,
    }
}

/// Runs an accepted start up to a place; gives the place reached.
pub fn run_to_place(geometry: &Geometry, start: &mut Start, last: u32) -> u32 {
    let [one, two] = &mut start.banks;
    let mut banks = Banks { one, two };
    let mut place = 0;
    while place < last.min(MOST_TURNS) {
        let numbers = geometry.numbers();
        match turn(numbers, start.device, &mut banks, &start.image, &[], place) {
            Ok(after) if !after.done => {
                start.device = after.device;
                place = after.place;
            }
            _ => return place,
        }
    }
    place
}
