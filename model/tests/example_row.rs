//! What the example of a row of signs is expected to print is what this model gives.

use model::device::{Device, BFSWAP, NVMCON};
use model::flash::reset;
use model::geometry::Banks;
use model::schedule::{schedule, Common, Row, Sign};
use model::store::start_up;
use model::update::update_start;
use std::fmt::Write;
use std::path::Path;

const NUMBERS: [u32; 3] = [1, 1, 1];
const WORDS: usize = 64;
const SEQUENCE: usize = 28;
const SIGNS: u32 = 2;

struct Supply {
    row: Row,
    store: Vec<u32>,
    image: Vec<u32>,
    text: String,
}

impl Supply {
    /// A reset and a start-up of one sign, whose banks stand one after the other; gives the bank that runs.
    fn restart(&mut self, record: usize) -> u32 {
        let sign = &mut self.row.signs[record];
        let own = &mut self.store[sign.starts[0] as usize..][..2 * WORDS];
        let (one, two) = own.split_at_mut(WORDS);
        let mut banks = Banks { one, two };
        let restart = reset(NUMBERS, sign.device, &mut banks, &[], 0, [0; 4]).unwrap();
        sign.device = start_up(NUMBERS, restart.device).unwrap();
        1 + u32::from(sign.device.registers[NVMCON] & BFSWAP != 0)
    }

    /// The actions of a sign's update.
    fn start(&mut self, record: usize) -> u32 {
        let sign = &self.row.signs[record];
        let own = &mut self.store[sign.starts[0] as usize..][..2 * WORDS];
        let (one, two) = own.split_at_mut(WORDS);
        let (_, total) =
            update_start(NUMBERS, &sign.device, &Banks { one, two }, &self.image).unwrap();
        total
    }

    fn begin(&mut self) {
        let first = |record: u32| 2 * record * WORDS as u32;
        let sign = |record| Sign {
            device: Device::reset_values(),
            place: 0,
            starts: [first(record), first(record) + WORDS as u32],
        };
        self.row = Row {
            signs: (0..SIGNS).map(sign).collect(),
            queue: Vec::new(),
            last: SIGNS - 1,
        };
        self.store = vec![!0; 2 * SIGNS as usize * WORDS];
        let mut actions = 0;
        for record in 0..SIGNS as usize {
            self.store[2 * record * WORDS + SEQUENCE] = 0xFFFE_0001;
            assert_eq!(self.restart(record), 1);
            actions += self.start(record);
        }
        writeln!(self.text, "{SIGNS} signs: {actions} actions").unwrap();
    }

    /// Calls until one is idle.
    fn run(&mut self, most: u32) {
        let common = Common {
            numbers: NUMBERS,
            image: &self.image,
            sram: &[],
        };
        let (row, store) = (&mut self.row, &mut self.store);
        let refusal = schedule(&common, 0, row, store).unwrap_err().number();
        let (mut calls, mut events, mut together, mut waited) = (0, 0, 0, 0);
        while let Some(served) = schedule(&common, most, row, store).unwrap() {
            calls += 1;
            events += u32::from(served.event);
            together = row.running().max(together);
            waited += u32::from(!row.queue.is_empty());
        }
        writeln!(
            self.text,
            "K 0: declined by {refusal}\n\
             K {most}: {calls} calls, {events} events, at most {together} together, after {waited} calls a sign waits"
        )
        .unwrap();
    }
}

#[test]
fn row_of_two_signs() {
    let mut supply = Supply {
        row: Row::default(),
        store: Vec::new(),
        image: (0..WORDS as u32).map(|index| 0x0200_0000 + index).collect(),
        text: String::new(),
    };
    for most in 1..=2 {
        supply.begin();
        supply.run(most);
        for record in 0..SIGNS as usize {
            let bank = supply.restart(record);
            writeln!(supply.text, "sign {record}: bank {bank} runs").unwrap();
        }
    }
    let folder = Path::new(env!("CARGO_MANIFEST_DIR")).join("../examples");
    let stored = std::fs::read_to_string(folder.join("row.out")).unwrap();
    assert_eq!(supply.text, stored);
}
