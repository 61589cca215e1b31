//! Flash reads of the largest sign: one that need not wait, and one that waits for both regions to be erased.

use model::device::Device as OutsideDevice;
use model::flash;
use model::generate::old_bank_one;
use model::geometry::{Banks, Geometry as OutsideGeometry, LOWER_PROGRAM};
use yohrundel::nvmcon::{WR, WRERR};
use yohrundel::{flash_read, Device, Geometry};

use crate::rounds::{report, rounds, Side};

/// Q, B and P.
const LARGEST: [u32; 3] = [128, 5, 128];

/// Both regions erased: the NVMOP and its steps.
const BOTH_REGIONS: u32 = 7;
const STEPS: u32 = 2 * 8 * 128 * 128;

/// Reads of a slice, and slices of a round, where no read waits.
const READS: u32 = 10_000;
const SLICES: u32 = 10;

/// What the reads of a measure find.
#[derive(Clone, Copy)]
struct Reads {
    /// Of a device at rest, or before the first step.
    nvmcon: u32,
    in_slice: u32,
}

const AT_REST: Reads = Reads {
    nvmcon: 0,
    in_slice: READS,
};

const WAITING: Reads = Reads {
    nvmcon: WR | WRERR | BOTH_REGIONS,
    in_slice: 1,
};

struct Archive {
    reads: Reads,
    banks: [Vec<u32>; 2],
    sum: u32,
}

struct Outside {
    reads: Reads,
    banks: [Vec<u32>; 2],
    sum: u32,
}

/// The addresses of a slice: words of both regions by turns.
fn addresses(count: u32) -> impl Iterator<Item = u32> {
    (0..count).map(|number| LOWER_PROGRAM + 4 * (number * 7919 % (STEPS * 4)))
}

impl Side for Archive {
    fn restart(&mut self) {
        self.sum = 0;
    }

    fn run(&mut self, _: u32) {
        let [q, b, p] = LARGEST;
        let sign = Geometry { q, b, p };
        let nvmcon = self.reads.nvmcon;
        let device = Device {
            nvmcon,
            ..Device::power_on()
        };
        let [one, two] = &mut self.banks;
        for address in addresses(self.reads.in_slice) {
            let read = flash_read(sign, device, one, two, &[], address).expect("a read");
            self.sum = self.sum.wrapping_add(read.word);
        }
    }
}

impl Side for Outside {
    fn restart(&mut self) {
        self.sum = 0;
    }

    fn run(&mut self, _: u32) {
        let mut device = OutsideDevice::reset_values();
        device.registers[0] = self.reads.nvmcon;
        let [one, two] = &mut self.banks;
        let mut banks = Banks { one, two };
        for address in addresses(self.reads.in_slice) {
            let read = flash::flash_read(LARGEST, device, &mut banks, &[], address);
            self.sum = self.sum.wrapping_add(read.expect("a read").word);
        }
    }
}

/// Both sides on the same banks; the slices of a round, and the units of work in them.
fn measure(name: &str, reads: Reads, slices: u32, unit: &str, units: u32) {
    let outside = OutsideGeometry::new(LARGEST).expect("a sign");
    let banks = old_bank_one(&outside, 1);
    let mut archive = Archive {
        reads,
        banks: banks.clone(),
        sum: 0,
    };
    let mut outside = Outside {
        reads,
        banks,
        sum: 0,
    };
    let times = rounds([&mut archive, &mut outside], slices);
    assert!(archive.sum == outside.sum, "the words read");
    assert!(archive.banks == outside.banks, "the banks after the reads");
    report(name, &times, unit, [units; 2]);
}

/// The archive's flash reads beside the model's.
pub fn beside_the_model() {
    let name = "flash read that need not wait, beside the model";
    measure(name, AT_REST, SLICES, "read", SLICES * READS);
    let name = "flash read that waits for both regions, beside the model";
    measure(name, WAITING, 2, "step", 2 * STEPS);
}
