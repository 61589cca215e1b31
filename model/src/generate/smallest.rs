//! Scripts with a decline somewhere inside, a number that they mostly show, scratch banks and a result buffer.

use crate::cases::Case;
use crate::device::{possible, NVMKEY, NVMPWP};
use crate::geometry::Geometry;
use crate::list::List;
use crate::random::Random;
use crate::script::{records, Record};
use crate::smallest::{Bench, MOST_RECORDS};
use crate::store::KEYS;

use super::calls::{put_banks, put_sram_words};
use super::memory::{self, set_bytes};
use super::scripts::{damage, part, store};

/// How seldom one input is spoiled: once in this many cases.
const SPOILED: u32 = 14;

/// Banks up to this length get any scratch banks and any script; for longer ones a line and the trials would be long.
const SHORT_BANK: u32 = 512;

pub fn smallest_case(random: &mut Random, geometry: &Geometry, case: &mut Case) {
    let banks = originals(random, geometry, case);
    let sram = memory::row_sram(random, geometry, &case.device);
    let script = script(random, geometry);
    let number = number(random, case, &banks, &sram, &script);
    let scratch = scratch(random, geometry, &banks);
    put_banks(random, case, scratch);
    let scratch = std::mem::take(&mut case.lists);
    put_banks(random, case, banks);
    put_sram_words(random, case, &sram);
    case.lists.extend(scratch);
    case.lists.push(List::from_bytes(&script));
    let result = result(random, script.len());
    case.lists.push(List::from_bytes(&result));
    case.numbers = vec![number];
}

fn originals(random: &mut Random, geometry: &Geometry, case: &Case) -> [Vec<u32>; 2] {
    let pair = memory::sequence_pair(random);
    let mut banks = memory::banks(random, geometry, pair);
    if possible(geometry, &case.device) {
        memory::prepare_quad(random, geometry, &case.device, &mut banks);
        memory::prepare_row(random, geometry, &case.device, &mut banks);
    }
    banks
}

/// Few records, some, or about as many as are taken; seldom damaged.
fn script(random: &mut Random, geometry: &Geometry) -> Vec<u8> {
    let short = geometry.bank_words() <= SHORT_BANK;
    let count = match random.below(16) {
        0 => 0,
        1 | 2 => MOST_RECORDS as u32 + random.pick(&[1, 1, 2, 20]),
        3 if short => MOST_RECORDS as u32,
        4..=8 if short => random.between(9, 40),
        _ => random.pick(&[1, 1, 2, 3, 4, 5, 6, 8]),
    } as usize;
    let mut records: Vec<Record> = Vec::new();
    while records.len() < count {
        part(random, geometry, &mut records);
    }
    // The end, so that it need not begin with a launch.
    records.drain(..records.len() - count);
    if count > 0 && random.one_in(2) {
        let index = random.below(count as u32) as usize;
        records[index] = declined(random);
    }
    let mut bytes: Vec<u8> = records.iter().flat_map(Record::bytes).collect();
    if count > 0 && random.one_in(SPOILED) {
        damage(random, &mut bytes);
    }
    bytes
}

/// A record that is declined, by 4 or in some states.
fn declined(random: &mut Random) -> Record {
    let mut record = Vec::new();
    match random.below(3) {
        0 => record.push(Record::Step),
        1 => store(&mut record, NVMPWP, random.below(4), random.edge_word()),
        _ => store(
            &mut record,
            NVMKEY,
            random.between(1, 3),
            random.pick(&KEYS),
        ),
    }
    record[0]
}

/// Mostly a number among the answers of the play, where there is one.
fn number(
    random: &mut Random,
    case: &Case,
    banks: &[Vec<u32>; 2],
    sram: &[u32],
    script: &[u8],
) -> u32 {
    let bench = Bench {
        numbers: case.geometry,
        device: case.device,
        banks: [&banks[0], &banks[1]],
        sram,
    };
    let records = records(script).unwrap_or_default();
    let mut shown = bench.answers(&records);
    shown.retain(|number| *number != 0);
    match random.below(12) {
        0 => random.pick(&[0, 0, 1, 3, 7, 14, 20, 21, 0xFFFF_FFFF]),
        1 => random.between(4, 6),
        _ if shown.is_empty() => random.between(4, 6),
        _ => random.pick(&shown),
    }
}

/// The originals, but for some words or not, or words of their own.
fn scratch(random: &mut Random, geometry: &Geometry, banks: &[Vec<u32>; 2]) -> [Vec<u32>; 2] {
    if geometry.bank_words() <= SHORT_BANK && random.one_in(4) {
        let pair = memory::sequence_pair(random);
        return memory::banks(random, geometry, pair);
    }
    let mut scratch = banks.clone();
    if random.one_in(2) {
        for _ in 0..random.between(1, 8) {
            let index = random.below(geometry.bank_words()) as usize;
            scratch[random.below(2) as usize][index] = random.edge_word();
        }
    }
    scratch
}

/// Bytes for a result, seldom too few or too many.
fn result(random: &mut Random, right: usize) -> Vec<u8> {
    let length = match random.below(SPOILED) {
        0 => random.pick(&[0, 1, 8, right.saturating_sub(1), right + 1, right + 8]),
        _ => right,
    };
    let mut bytes = vec![random.pick(&[0, 0, 0, 1, 2, 0xFF]); length];
    if random.one_in(3) {
        set_bytes(random, &mut bytes);
    }
    bytes
}
