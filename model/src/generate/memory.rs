//! Banks, images, SRAM, sequence words and bytes.

use crate::device::{Device, NVMSRCADDR};
use crate::geometry::{Geometry, ALL_ONES};
use crate::operation::next_quad;
use crate::random::Random;
use crate::sequence::word_of;

/// T near its ends, or any T.
fn low_half(random: &mut Random) -> u16 {
    match random.below(3) {
        0 => random.pick(&[0, 1, 2, 255, 256, 0x7FFF, 0x8000, 65_533, 65_534, 65_535]),
        _ => random.word() as u16,
    }
}

/// A sequence word, valid or not.
pub fn sequence_word(random: &mut Random) -> u32 {
    let valid = word_of(low_half(random));
    match random.below(10) {
        0 => ALL_ONES,
        1 => 0,
        // one bit risen or fallen
        2 => valid | 1 << random.below(32),
        3 => valid & !(1 << random.below(32)),
        4 => random.edge_word(),
        _ => valid,
    }
}

/// Two sequence words, often near each other.
pub fn sequence_pair(random: &mut Random) -> [u32; 2] {
    let first = sequence_word(random);
    let low = first as u16;
    let second = match random.below(6) {
        0 => first,
        1 => word_of(low.wrapping_add(1)),
        2 => word_of(low.wrapping_sub(1)),
        _ => sequence_word(random),
    };
    [first, second]
}

/// Words of a bank or image; most of them equal, except in some short ones.
pub fn words(random: &mut Random, length: usize) -> Vec<u32> {
    if length <= 128 && random.one_in(8) {
        return (0..length).map(|_| random.word()).collect();
    }
    let fill = if random.one_in(6) { 0 } else { ALL_ONES };
    let mut words = vec![fill; length];
    for _ in 0..random.below(24) {
        if length > 0 {
            let index = random.below(length as u32) as usize;
            words[index] = random.edge_word();
        }
    }
    words
}

pub fn image(random: &mut Random, geometry: &Geometry) -> Vec<u32> {
    words(random, geometry.bank_words() as usize)
}

/// Both banks with a pair of sequence words.
pub fn banks(random: &mut Random, geometry: &Geometry, pair: [u32; 2]) -> [Vec<u32>; 2] {
    let mut one = image(random, geometry);
    let mut two = if random.one_in(10) {
        one.clone()
    } else {
        image(random, geometry)
    };
    one[geometry.sequence_index()] = pair[0];
    two[geometry.sequence_index()] = pair[1];
    [one, two]
}

/// For programming, makes the quad of the next step blank, or blank but for one bit;
/// for erasing, puts words there; or leaves it.
pub fn prepare_quad(
    random: &mut Random,
    geometry: &Geometry,
    device: &Device,
    banks: &mut [Vec<u32>; 2],
) {
    let Some(location) = next_quad(geometry, device) else {
        return;
    };
    let bank = device.bank_at(location.kind, location.side).number() as usize - 1;
    let index = geometry.word_index(location);
    let quad = &mut banks[bank][index..index + 4];
    match random.below(6) {
        0 => {}
        _ if device.nvmop() >= 4 => quad.fill_with(|| random.edge_word()),
        1 => {
            quad.fill(ALL_ONES);
            quad[random.below(4) as usize] = !(1 << random.below(32));
        }
        _ => quad.fill(ALL_ONES),
    }
}

/// For a row, makes what is left of it blank, in one case of three but for one bit.
pub fn prepare_row(
    random: &mut Random,
    geometry: &Geometry,
    device: &Device,
    banks: &mut [Vec<u32>; 2],
) {
    if device.nvmop() != 3 {
        return;
    }
    let Some(location) = next_quad(geometry, device) else {
        return;
    };
    let bank = device.bank_at(location.kind, location.side).number() as usize - 1;
    let first = geometry.word_index(location);
    let length = 4 * (geometry.row_quads - device.step_number);
    let rest = &mut banks[bank][first..first + length as usize];
    rest.fill(ALL_ONES);
    if random.one_in(3) {
        rest[random.below(length) as usize] = !(1 << random.below(32));
    }
}

/// SRAM that ends with the words of a running row, a word or some quads before, or as for its next step.
pub fn row_sram(random: &mut Random, geometry: &Geometry, device: &Device) -> Vec<u32> {
    let last = u64::from(device.launched.source) / 4 + 4 * u64::from(geometry.row_quads);
    if device.nvmop() != 3 || last > 16_384 || random.one_in(4) {
        return sram(random, device);
    }
    let missing = match random.below(4) {
        0 => 1,
        1 => 4 * random.below(geometry.row_quads),
        _ => 0,
    };
    let mut sram = words(random, (last - u64::from(missing)) as usize);
    for (index, word) in sram.iter_mut().enumerate().rev().take(24) {
        *word = 0x0A00_0000 + index as u32;
    }
    sram
}

/// SRAM that ends near the words the next row step needs, or of some other length.
pub fn sram(random: &mut Random, device: &Device) -> Vec<u32> {
    let source = if device.running() {
        device.launched.source
    } else {
        device.registers[NVMSRCADDR]
    };
    let first = u64::from(source) / 4 + 4 * u64::from(device.step_number);
    let length = match random.below(6) {
        0 => random.below(8) as usize,
        1 => random.pick(&[16_383, 16_384]),
        2 if first < 16_000 => first as usize + 3,
        _ if first < 16_000 => first as usize + 4,
        _ => 16_384,
    };
    let mut sram = words(random, length);
    for word in 0..8 {
        if let Some(place) = sram.get_mut(first as usize + word) {
            *place = random.edge_word();
        }
    }
    sram
}

/// A length that decline 2 refuses for a bank.
pub fn refused_length(random: &mut Random, words: &mut Vec<u32>) {
    let length = words.len();
    let other = match random.below(5) {
        0 => 0,
        1 => length + 1,
        2 => length / 2,
        3 => length + 32,
        _ => length - 1,
    };
    words.resize(other, ALL_ONES);
}

/// Sets some bytes, the last among them.
pub fn set_bytes(random: &mut Random, bytes: &mut [u8]) {
    let length = bytes.len() as u32;
    for _ in 0..random.below(8) {
        if let Some(last) = bytes.last_mut() {
            *last = random.word() as u8;
            bytes[random.below(length) as usize] = random.word() as u8;
        }
    }
}

/// "bank 1 valid, bank 2 all ones": the banks of a fresh sign.
pub fn old_bank_one(geometry: &Geometry, seed: u64) -> [Vec<u32>; 2] {
    let mut one = random_image(geometry, seed);
    one[geometry.sequence_index()] = word_of(1);
    let two = vec![ALL_ONES; one.len()];
    [one, two]
}

/// An image of words without order.
pub fn random_image(geometry: &Geometry, seed: u64) -> Vec<u32> {
    let mut random = Random::new(seed);
    (0..geometry.bank_words()).map(|_| random.word()).collect()
}
