//! The smallest script that shows a number: which records are left, what the buffers hold, and that no record of it can go.

use model::device::*;
use model::generate::{accepted_start, random_image, script as random_script};
use model::geometry::{Banks, Geometry, ALL_ONES, LOWER_PROGRAM};
use model::random::Random;
use model::script::{play_records, records, Record};
use model::smallest::{smallest, Bench, MOST_RECORDS};
use model::store::{INVERT, KEYS, PLAIN, SET};
use model::{Answer, Refusal};

/// No byte of a record, so that each byte of a result must be written.
const BEFORE: u8 = 0xA5;

/// A sign with its banks and an SRAM.
struct Sign {
    numbers: [u32; 3],
    device: Device,
    banks: [Vec<u32>; 2],
    sram: Vec<u32>,
}

/// What a call leaves.
#[derive(Debug, PartialEq, Eq)]
struct Left {
    answer: Answer<u32>,
    scratch: [Vec<u32>; 2],
    result: Vec<u8>,
}

impl Sign {
    /// Blank banks of the smallest sign.
    fn small(device: Device) -> Sign {
        Sign {
            numbers: [1, 1, 1],
            device,
            banks: [1, 2].map(|_| vec![ALL_ONES; 64]),
            sram: Vec::new(),
        }
    }

    /// While a row program of two quads runs.
    fn row() -> Sign {
        let mut device = Device::reset_values();
        device.registers[NVMCON] = WR | WRERR | WREN | 3;
        device.registers[NVMADDR] = LOWER_PROGRAM;
        device.launched = device.loaded();
        Sign {
            numbers: [2, 1, 1],
            device,
            banks: [1, 2].map(|_| vec![ALL_ONES; 128]),
            sram: (1..=8).collect(),
        }
    }

    /// Into scratch banks of zeros and a result of other bytes.
    fn reduce(&self, script: &[u8], number: u32) -> Left {
        let mut scratch = [0, 1].map(|bank| vec![0; self.banks[bank].len()]);
        let mut result = vec![BEFORE; script.len()];
        let bench = Bench {
            numbers: self.numbers,
            device: self.device,
            banks: [&self.banks[0], &self.banks[1]],
            sram: &self.sram,
        };
        let [one, two] = &mut scratch;
        let mut lent = Banks { one, two };
        let answer = smallest(&bench, &mut lent, script, number, &mut result);
        Left {
            answer,
            scratch,
            result,
        }
    }

    /// The records that are left of a script that shows the number.
    fn left(&self, script: &[Record], number: u32) -> Vec<Record> {
        let left = self.reduce(&bytes(script), number);
        let bytes = 8 * left.answer.unwrap() as usize;
        assert_eq!(left.scratch, self.banks);
        assert_eq!(left.result[bytes..], vec![0; left.result.len() - bytes]);
        records(&left.result[..bytes]).unwrap()
    }

    /// Whether the number is among the answers that a play prints.
    fn shows(&self, script: &[Record], number: u32) -> bool {
        let [mut one, mut two] = self.banks.clone();
        let mut banks = Banks {
            one: &mut one,
            two: &mut two,
        };
        let mut device = self.device;
        let text = play_records(self.numbers, &mut device, &mut banks, &self.sram, script);
        let number = number.to_string();
        let mut answers = text.lines().filter_map(|line| line.split(' ').nth(1));
        answers.any(|answer| answer == number)
    }

    /// The sentence of the request, drop by drop.
    fn dropped(&self, script: Vec<Record>, number: u32) -> Vec<Record> {
        for index in 0..script.len() {
            let rest = without(&script, index);
            if self.shows(&rest, number) {
                return self.dropped(rest, number);
            }
        }
        script
    }
}

fn without(script: &[Record], index: usize) -> Vec<Record> {
    [&script[..index], &script[index + 1..]].concat()
}

fn bytes(script: &[Record]) -> Vec<u8> {
    script.iter().flat_map(Record::bytes).collect()
}

fn store(register: usize, form: u32, value: u32) -> Record {
    let (register, form) = (register as u8, form as u8);
    Record::Store {
        register,
        form,
        value,
    }
}

/// The three key stores and NVMCON set 0x8000.
fn launch() -> Vec<Record> {
    let keys = KEYS.map(|key| store(NVMKEY, PLAIN, key));
    [&keys[..], &[store(NVMCON, SET, WR)]].concat()
}

/// At rest, with the NVMOP and the target of a page erase.
fn ready(con: u32) -> Device {
    let mut device = Device::reset_values();
    device.registers[NVMCON] = con | 4;
    device.registers[NVMADDR] = LOWER_PROGRAM;
    device
}

#[test]
fn the_lowest_record_goes_first() {
    let sign = Sign::small(Device::reset_values());
    let forms: Vec<Record> = (0..5).map(|value| store(NVMKEY, SET, value)).collect();
    assert_eq!(sign.left(&forms, 4), forms[4..]);
}

/// Two stores keep a launch from beginning. They can go once the launch cannot begin any more.
#[test]
fn it_begins_again_from_the_top() {
    let sign = Sign::small(ready(0));
    let inverts = [store(NVMCON, INVERT, WREN); 2];
    let script = [&inverts[..], &launch(), &[Record::Step]].concat();
    assert!(!sign.shows(&script[1..], 6));
    assert_eq!(sign.left(&script, 6), [Record::Step]);
}

/// "without any one of its records it doesn't": but without two of them it may.
#[test]
fn a_result_need_not_be_the_fewest() {
    let sign = Sign::small(ready(WREN));
    let inverts = [store(NVMCON, INVERT, WREN); 2];
    let script = [&inverts[..], &launch(), &[store(NVMPWP, PLAIN, 1)]].concat();
    assert_eq!(sign.left(&script, 5), script);
    assert!(sign.shows(&script[2..], 5));
}

/// Each trial finds blank banks: a row that is programmed already would abort, and a step fewer would do.
#[test]
fn each_trial_has_the_originals() {
    let sign = Sign::row();
    let steps = [Record::Step; 5];
    assert_eq!(sign.left(&steps, 6), steps[..3]);
    assert_eq!(
        sign.reduce(&bytes(&steps[..2]), 6).answer,
        Err(Refusal::NotShown)
    );
}

#[test]
fn the_most_records() {
    let sign = Sign::small(Device::reset_values());
    let steps = |count| bytes(&vec![Record::Step; count]);
    assert_eq!(sign.reduce(&steps(MOST_RECORDS), 6).answer, Ok(1));
    let left = sign.reduce(&steps(MOST_RECORDS + 1), 6);
    assert_eq!(left.answer, Err(Refusal::Records));
}

/// "Number 0 counts as never given", and a play gives no other numbers than 0, 4, 5 and 6.
#[test]
fn numbers_that_a_play_does_not_give() {
    let sign = Sign::small(Device::reset_values());
    let script = bytes(&[Record::Reset { kind: 0 }, Record::Step]);
    for number in [0, 1, 2, 3, 4, 5, 7, 9, 14, 21, 255, ALL_ONES] {
        let left = sign.reduce(&script, number);
        assert_eq!(left.answer, Err(Refusal::NotShown), "{number}");
        assert_eq!(left.scratch, sign.banks);
        assert_eq!(left.result, vec![BEFORE; 16]);
    }
    assert_eq!(sign.reduce(&[], 6).answer, Err(Refusal::NotShown));
}

/// "with every other decline" the scratch banks keep their contents too.
#[test]
fn what_the_other_declines_leave() {
    let impossible = Device {
        key_step: 4,
        ..Device::reset_values()
    };
    let sign = Sign::small(Device::reset_values());
    let (small, zeros) = (Sign::small(impossible), vec![0; 8 * 65]);
    for (sign, script, refusal) in [
        (&small, &zeros[..8], Refusal::Device),
        (&sign, &zeros[..7], Refusal::Script),
        (&sign, &zeros, Refusal::Records),
    ] {
        let left = sign.reduce(script, 6);
        assert_eq!(left.answer, Err(refusal));
        assert_eq!(left.scratch, [vec![0; 64], vec![0; 64]]);
        assert_eq!(left.result, vec![BEFORE; script.len()]);
    }
}

fn random_sign(random: &mut Random) -> Sign {
    let numbers = random.pick(&[[1, 1, 1], [2, 1, 1], [1, 2, 2], [4, 1, 1]]);
    let geometry = Geometry::new(numbers).unwrap();
    let start = accepted_start(random, &geometry);
    let sram = random_image(&geometry, 7);
    Sign {
        numbers,
        device: start.device,
        banks: start.banks,
        sram,
    }
}

/// "The result shows the number, and without any one of its records it doesn't."
#[test]
fn no_record_of_a_result_can_go() {
    let mut random = Random::new(1);
    let mut seen = [0; 3];
    for seed in 0..400 {
        let sign = random_sign(&mut random);
        let Ok(mut script) = records(&random_script(seed, false)) else {
            continue;
        };
        script.truncate(MOST_RECORDS);
        for (count, number) in seen.iter_mut().zip(4..) {
            if !sign.shows(&script, number) {
                continue;
            }
            let left = sign.left(&script, number);
            assert!(sign.shows(&left, number));
            let mut trials = (0..left.len()).map(|index| without(&left, index));
            assert!(!trials.any(|rest| sign.shows(&rest, number)), "{seed}");
            assert_eq!(left, sign.dropped(script.clone(), number), "{seed}");
            *count += 1;
        }
    }
    assert!(seen.iter().all(|count| *count > 20), "{seen:?}");
}
