//! Written scripts: what stands in them, and that their play is the update.

use model::device::{Device, BFSWAP, NVMCON2, SWAPLOCK};
use model::generate::{accepted_start, random_image, Start};
use model::geometry::{Banks, Geometry};
use model::random::Random;
use model::script::{play_record, records, Record};
use model::sequence::word_of;
use model::update::{turn, update_start};
use model::write_script::{script_bytes, write_script};
use model::{Answer, Refusal};

/// No byte of a record's unused bytes, so that each of them must be written.
const BEFORE: u8 = 0xA5;

fn sign(numbers: [u32; 3]) -> Geometry {
    Geometry::new(numbers).unwrap()
}

/// Writes the script of a start into a buffer; gives the number of records.
fn write_into(numbers: [u32; 3], start: &Start, buffer: &mut [u8]) -> Answer<u32> {
    let [mut one, mut two] = start.banks.clone();
    let banks = Banks {
        one: &mut one,
        two: &mut two,
    };
    write_script(numbers, &start.device, &banks, &start.image, buffer)
}

/// The script of an accepted start.
fn written(numbers: [u32; 3], start: &Start) -> Vec<u8> {
    let mut buffer = vec![BEFORE; script_bytes(&sign(numbers)) as usize];
    let records = write_into(numbers, start, &mut buffer).unwrap();
    assert_eq!(buffer.len() as u32, 8 * records);
    buffer
}

fn random_start(numbers: [u32; 3], seed: u64) -> Start {
    accepted_start(&mut Random::new(seed), &sign(numbers))
}

/// The smallest sign's first and last records, byte by byte.
#[test]
fn records_of_the_smallest_sign() {
    let mut start = random_start([1, 1, 1], 1);
    start.device = Device::reset_values();
    start.banks = [vec![7; 64], vec![!0; 64]];
    start.banks[0][28] = 0xFFFE_0001;
    start.image = (0..64).map(|index| 0x0A0B_0C00 + index).collect();
    let script = written([1, 1, 1], &start);
    assert_eq!(script.len(), 2016);
    // NVMCON clear 0x4000; NVMCON plain 0; set 0x4000; the first two keys.
    assert_eq!(
        script[..40],
        [
            0, 0, 1, 0, 0, 0x40, 0, 0, 0, 0, 0, 0, 0, 0, 0, 0, 0, 0, 2, 0, 0, 0x40, 0, 0, 0, 1, 0,
            0, 0, 0, 0, 0, 0, 1, 0, 0, 0x55, 0x66, 0x99, 0xAA
        ]
    );
    // NVMBWP clear 0x1F, then NVMADDR of the last boot page on the upper side.
    assert_eq!(
        script[88..104],
        [0, 9, 1, 0, 0x1F, 0, 0, 0, 0, 2, 0, 0, 0, 0, 0xC2, 0x1F]
    );
    // The first program quad: NVMADDR, NVMDATA0, NVMDATA1.
    assert_eq!(
        script[8 * 44..8 * 47],
        [
            0, 2, 0, 0, 0x80, 0, 0, 0x1D, 0, 3, 0, 0, 0x20, 0x0C, 0x0B, 0x0A, 0, 4, 0, 0, 0x21,
            0x0C, 0x0B, 0x0A
        ]
    );
    // The sequence quad: NVMADDR and NVMDATA0; at last the step, and NVMCON clear 0x4000.
    assert_eq!(
        script[8 * 239..8 * 241],
        [0, 2, 0, 0, 0x70, 0, 0xC2, 0x1F, 0, 3, 0, 0, 2, 0, 0xFD, 0xFF]
    );
    assert_eq!(
        script[8 * 250..],
        [1, 0, 0, 0, 0, 0, 0, 0, 0, 0, 1, 0, 0, 0x40, 0, 0]
    );
}

#[test]
fn bytes_past_the_script_are_kept() {
    for (numbers, more) in [([1, 1, 1], 1), ([1, 2, 1], 8), ([2, 1, 3], 1000)] {
        let start = random_start(numbers, 2);
        let script = written(numbers, &start);
        let mut buffer = vec![BEFORE; script.len() + more];
        write_into(numbers, &start, &mut buffer).unwrap();
        assert_eq!(buffer, [script, vec![BEFORE; more]].concat());
    }
}

#[test]
fn a_buffer_shorter_than_the_script() {
    let start = random_start([1, 1, 1], 3);
    for length in [0, 1, 8, 2008, 2015] {
        let mut buffer = vec![BEFORE; length];
        let refused = write_into([1, 1, 1], &start, &mut buffer);
        assert_eq!(refused, Err(Refusal::ScriptBuffer));
        assert_eq!(buffer, vec![BEFORE; length]);
    }
}

/// "Start's own checks come first."
#[test]
fn a_start_that_is_refused() {
    for length in [2015, 2016] {
        let mut start = random_start([1, 1, 1], 4);
        let own = usize::from(start.device.con(BFSWAP));
        start.banks[own][28] = word_of(65_535);
        start.banks[1 - own][28] = !0;
        let mut buffer = vec![BEFORE; length];
        let refused = write_into([1, 1, 1], &start, &mut buffer);
        assert_eq!(refused, Err(Refusal::LastSequence));
        assert_eq!(buffer, vec![BEFORE; length]);
    }
}

/// Device and banks of one sign.
#[derive(Clone, PartialEq, Eq, Debug)]
struct State {
    device: Device,
    banks: [Vec<u32>; 2],
}

impl State {
    fn new(start: &Start) -> State {
        State {
            device: start.device,
            banks: start.banks.clone(),
        }
    }

    fn turn(&mut self, numbers: [u32; 3], image: &[u32], place: u32) -> bool {
        let [one, two] = &mut self.banks;
        let mut banks = Banks { one, two };
        let after = turn(numbers, self.device, &mut banks, image, &[], place).unwrap();
        self.device = after.device;
        after.event
    }

    fn play(&mut self, numbers: [u32; 3], record: &Record) -> bool {
        let [one, two] = &mut self.banks;
        let mut banks = Banks { one, two };
        let (device, event) = play_record(numbers, self.device, &mut banks, &[], record).unwrap();
        self.device = device;
        event
    }
}

/// "Played from the same device, the script ends with the same device and banks as the updater": after each record too.
#[test]
fn a_play_is_the_update() {
    for (seed, numbers) in [[1, 1, 1], [1, 2, 1], [2, 1, 1], [1, 1, 2], [4, 1, 1]]
        .into_iter()
        .cycle()
        .take(30)
        .enumerate()
    {
        let start = random_start(numbers, 100 + seed as u64);
        let (mut played, mut turned) = (State::new(&start), State::new(&start));
        for (place, record) in (0..).zip(records(&written(numbers, &start)).unwrap()) {
            let event = played.play(numbers, &record);
            assert_eq!(event, turned.turn(numbers, &start.image, place));
            assert_eq!(played, turned, "{numbers:?}, record {place}");
        }
    }
}

/// What is written depends on geometry, image and t alone.
#[test]
fn other_signs_with_the_same_t() {
    let numbers = [2, 2, 1];
    let geometry = sign(numbers);
    let image = random_image(&geometry, 5);
    let mut scripts = Vec::new();
    for seed in 0..40 {
        let mut start = random_start(numbers, 200 + seed);
        let own = usize::from(start.device.con(BFSWAP));
        let index = geometry.sequence_index();
        start.banks[own][index] = word_of(500);
        start.banks[1 - own][index] = !0;
        start.device.registers[NVMCON2] ^= SWAPLOCK;
        start.image = image.clone();
        scripts.push(written(numbers, &start));
    }
    assert!(scripts.iter().all(|script| *script == scripts[0]));
}

/// "the largest total becomes 1,907,764".
#[test]
fn the_largest_script() {
    let numbers = [128, 5, 128];
    let start = random_start(numbers, 6);
    let script = written(numbers, &start);
    assert_eq!(script.len(), 15_262_112);
    assert_eq!(records(&script).unwrap().len(), 1_907_764);
    let [mut one, mut two] = start.banks.clone();
    let banks = Banks {
        one: &mut one,
        two: &mut two,
    };
    let started = update_start(numbers, &start.device, &banks, &start.image);
    assert_eq!(started, Ok((0, 1_907_764)));
}
