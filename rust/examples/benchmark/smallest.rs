//! Smallest scripts on the largest sign: one of which every record is needed, and one with many trials.

use model::device::{Device as OutsideDevice, NVMADDR, NVMCON, NVMDATA0, NVMKEY};
use model::generate::old_bank_one;
use model::geometry::{Banks, Geometry as OutsideGeometry, LOWER_PROGRAM};
use model::script::Record;
use model::smallest::{self as outside, Bench as OutsideBench};
use model::store::{INVERT, KEYS, PLAIN, SET};
use yohrundel::nvmcon::{WR, WREN, WRERR};
use yohrundel::{smallest, Bench, Device, Geometry, MOST_RECORDS};

use crate::rounds::{report, rounds, Side};

/// Q, B and P.
const LARGEST: [u32; 3] = [128, 5, 128];

/// A page erased: the NVMOP and its steps.
const PAGE_ERASE: u32 = 4;
const STEPS: usize = 8 * 128;

/// A step that is declined.
const NUMBER: u32 = 6;

/// A script that begins before the last steps of an erase.
struct Script {
    records: Vec<Record>,
    /// The steps that are left of the erase.
    left: usize,
    /// How often a script is played until no record can go.
    plays: u32,
}

impl Script {
    /// The steps that are left, and one that is declined: each of them is needed, and tried once.
    fn of_needed_records() -> Script {
        Script {
            records: vec![Record::Step; MOST_RECORDS],
            left: MOST_RECORDS - 1,
            plays: 1 + MOST_RECORDS as u32,
        }
    }

    /// The steps that are left; WREN inverted an even number of times; stores of data; a launch that does not begin, as WREN is 0; and a
    /// step that is declined. The inverts can go only when the launch is broken, for which all the stores of data go first.
    fn of_many_trials() -> Script {
        let (left, inverts, data) = (21, 20, 18);
        let mut records = vec![Record::Step; left];
        records.extend(vec![store(NVMCON, INVERT, WREN); inverts]);
        records.extend(vec![store(NVMDATA0, PLAIN, 0); data]);
        records.extend(KEYS.map(|key| store(NVMKEY, PLAIN, key)));
        records.extend([store(NVMCON, SET, WR), Record::Step]);
        let before = (data + 1) * (left + inverts + 1);
        let after = (inverts + 3) * (left + 1);
        let plays = 1 + before + after + left + 1;
        Script {
            records,
            left,
            plays: plays as u32,
        }
    }

    fn bytes(&self) -> Vec<u8> {
        self.records.iter().flat_map(Record::bytes).collect()
    }

    /// The step before which the erase is.
    fn step(&self) -> u32 {
        (STEPS - self.left) as u32
    }
}

fn store(register: usize, form: u32, value: u32) -> Record {
    let (register, form) = (register as u8, form as u8);
    Record::Store {
        register,
        form,
        value,
    }
}

struct Archive<'a> {
    bench: Bench<'a>,
    scratch: [Vec<u32>; 2],
    script: Vec<u8>,
    result: Vec<u8>,
    records: u32,
}

impl Side for Archive<'_> {
    fn restart(&mut self) {}

    fn run(&mut self, _: u32) {
        let [one, two] = &mut self.scratch;
        let found = smallest(
            self.bench,
            [one, two],
            &self.script,
            NUMBER,
            &mut self.result,
        );
        self.records = found.expect("a number that is shown");
    }
}

struct Outside<'a> {
    bench: OutsideBench<'a>,
    scratch: [Vec<u32>; 2],
    script: Vec<u8>,
    result: Vec<u8>,
    records: u32,
}

impl Side for Outside<'_> {
    fn restart(&mut self) {}

    fn run(&mut self, _: u32) {
        let [one, two] = &mut self.scratch;
        let (mut scratch, script) = (Banks { one, two }, &self.script);
        let found = outside::smallest(&self.bench, &mut scratch, script, NUMBER, &mut self.result);
        self.records = found.expect("a number that is shown");
    }
}

/// A device before a step of an erase.
fn device(step: u32) -> Device {
    let mut device = Device::power_on();
    device.nvmcon = WR | WRERR | PAGE_ERASE;
    (device.nvmaddr, device.launched.nvmaddr) = (LOWER_PROGRAM, LOWER_PROGRAM);
    device.step = step;
    device
}

fn outside_device(step: u32) -> OutsideDevice {
    let mut device = OutsideDevice::reset_values();
    device.registers[NVMCON] = WR | WRERR | PAGE_ERASE;
    device.registers[NVMADDR] = LOWER_PROGRAM;
    device.launched = device.loaded();
    device.step_number = step;
    device
}

impl<'a> Archive<'a> {
    fn new(banks: &'a [Vec<u32>; 2], script: &Script) -> Archive<'a> {
        let ([q, b, p], [one, two]) = (LARGEST, banks);
        let bench = Bench {
            geometry: Geometry { q, b, p },
            device: device(script.step()),
            one,
            two,
            sram: &[],
        };
        Archive {
            bench,
            scratch: banks.clone(),
            script: script.bytes(),
            result: script.bytes(),
            records: 0,
        }
    }
}

impl<'a> Outside<'a> {
    fn new(banks: &'a [Vec<u32>; 2], script: &Script) -> Outside<'a> {
        let bench = OutsideBench {
            numbers: LARGEST,
            device: outside_device(script.step()),
            banks: [&banks[0], &banks[1]],
            sram: &[],
        };
        Outside {
            bench,
            scratch: banks.clone(),
            script: script.bytes(),
            result: script.bytes(),
            records: 0,
        }
    }
}

/// Both sides on the same banks.
fn measure(name: &str, banks: &[Vec<u32>; 2], script: Script) {
    let mut archive = Archive::new(banks, &script);
    let mut outside = Outside::new(banks, &script);
    let times = rounds([&mut archive, &mut outside], 1);
    let left = script.left as u32 + 1;
    assert_eq!([archive.records, outside.records], [left; 2]);
    assert!(archive.result == outside.result, "the results");
    assert!(archive.scratch == *banks, "the scratch banks");
    let plays = script.plays;
    let name = format!("{plays} plays of scripts {name}, beside the model");
    report(&name, &times, "play", [plays; 2]);
}

/// The archive's smallest scripts beside the model's.
pub fn beside_the_model() {
    let geometry = OutsideGeometry::new(LARGEST).expect("a sign");
    let banks = old_bank_one(&geometry, 1);
    let script = Script::of_needed_records();
    measure("of which every record is needed", &banks, script);
    let script = Script::of_many_trials();
    measure("with many trials", &banks, script);
}
