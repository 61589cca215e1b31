//! The smallest script that shows a number: which records go, scratch banks that are set anew, and every decline.

mod edges;
mod reductions;
mod scratch;

use crate::cases::{Call, Case};
use crate::device::*;
use crate::geometry::{Geometry, LOWER_PROGRAM};
use crate::list::List;
use crate::script::Record;
use crate::smallest::MOST_RECORDS;
use crate::store::{PLAIN, SET};

use super::super::scripts;
use super::orders::{combined, key_step_four, long_sram, longer, Cause};
use super::parts::*;

pub fn cases() -> Vec<Case> {
    let ordered = ordered_smallest().into_iter().map(|(_, case)| case);
    [
        reductions::cases(),
        scratch::cases(),
        edges::cases(),
        ordered.collect(),
    ]
    .concat()
}

/// What a script is played on, and the scratch banks.
#[derive(Clone)]
struct Bench {
    geometry: Geometry,
    device: Device,
    banks: Pair,
    sram: Vec<u32>,
    scratch: Pair,
}

impl Bench {
    /// Blank banks but for the sequence words, and scratch banks with two other words.
    fn new(geometry: Geometry, device: Device) -> Bench {
        let banks = blank(&geometry);
        let mut scratch = banks.clone();
        scratch[0][0] = 0x1234_5678;
        scratch[1][geometry.bank_words() as usize - 1] = 0;
        Bench {
            geometry,
            device,
            banks,
            sram: Vec::new(),
            scratch,
        }
    }

    /// The smallest sign at rest.
    fn at_rest() -> Bench {
        Bench::new(SMALL, idle())
    }

    /// The smallest sign while a quad program of a blank quad runs.
    fn running() -> Bench {
        Bench::new(SMALL, running(2, LOWER_PROGRAM, 0))
    }

    /// A script, a number, and a buffer of its length for the result, filled with zeros.
    fn reduce(&self, records: &[Record], number: u32) -> Case {
        let script = bytes(records);
        self.reduce_into(&script, number, &vec![0; script.len()])
    }

    fn reduce_into(&self, script: &[u8], number: u32, result: &[u8]) -> Case {
        let mut case = step(&self.geometry, self.device, &self.banks, &self.sram);
        case.call = Call::Smallest;
        for bank in &self.scratch {
            case.lists.push(List::from_words(bank));
        }
        for bytes in [script, result] {
            case.lists.push(List::from_bytes(bytes));
        }
        case.numbers = vec![number];
        case
    }
}

fn bytes(records: &[Record]) -> Vec<u8> {
    records.iter().flat_map(Record::bytes).collect()
}

fn store(register: usize, form: u32, value: u32) -> Record {
    let (register, form) = (register as u8, form as u8);
    Record::Store {
        register,
        form,
        value,
    }
}

/// NVMKEY with another form than 0, which is declined as 4 whatever runs.
fn key_form(value: u32) -> Record {
    store(NVMKEY, SET, value)
}

/// A store that is declined as 5 while an operation runs, and else changes nothing: the key is not open.
fn locked_store(value: u32) -> Record {
    store(NVMPWP, PLAIN, value)
}

/// The three key stores and NVMCON set 0x8000.
fn launch_loaded() -> Vec<Record> {
    let mut records = Vec::new();
    scripts::keys(&mut records);
    records.push(store(NVMCON, SET, WR));
    records
}

/// NVMADDR, NVMCON plain NVMOP, set 0x4000, the keys, set 0x8000.
fn launch(nvmop: u32, address: u32) -> Vec<Record> {
    let front = [
        store(NVMADDR, PLAIN, address),
        store(NVMCON, PLAIN, nvmop),
        store(NVMCON, SET, WREN),
    ];
    [&front[..], &launch_loaded()].concat()
}

fn steps(count: usize) -> Vec<Record> {
    vec![Record::Step; count]
}

/// "20, after 14", "21, after it": every set of declines, each case with the lowest number, 0 where none applies.
pub fn ordered_smallest() -> Vec<(u32, Case)> {
    let base = Bench::at_rest().reduce(&[Record::Reset { kind: 0 }, Record::Step], 6);
    let causes: [Cause; 6] = [
        (1, &[three_quads]),
        (2, &[longer, long_sram, scratch_shorter, result_longer]),
        (3, &[key_step_four]),
        (14, &[unknown_kind]),
        (20, &[too_many_records]),
        (21, &[number_zero, number_seven]),
    ];
    combined(base, &causes)
}

/// All banks get the length that three quads per row would ask for.
fn three_quads(case: &mut Case) {
    case.geometry[0] = 3;
    for list in [0, 1, 3, 4] {
        case.lists[list].length *= 3;
    }
}

fn scratch_shorter(case: &mut Case) {
    let scratch = &mut case.lists[4];
    scratch.length -= 1;
    scratch.pairs.retain(|(index, _)| *index < scratch.length);
}

fn result_longer(case: &mut Case) {
    case.lists[6].length += 1;
}

/// The first record's kind.
fn unknown_kind(case: &mut Case) {
    case.lists[5].pairs[0].1 = 3;
}

/// Zeros behind the records are stores of NVMCON, up to one more than are taken.
fn too_many_records(case: &mut Case) {
    let more = 8 * (MOST_RECORDS + 1) - case.lists[5].length;
    for list in [5, 6] {
        case.lists[list].length += more;
    }
}

fn number_zero(case: &mut Case) {
    case.numbers[0] = 0;
}

fn number_seven(case: &mut Case) {
    case.numbers[0] = 7;
}
