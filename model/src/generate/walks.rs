//! Walks: launches with a probe's register reads among their stores, steps with loads among them, resets, start-ups and flash reads.

use crate::cases::Case;
use crate::device::*;
use crate::geometry::Geometry;
use crate::list::List;
use crate::random::Random;
use crate::store::{CLEAR, KEYS, PLAIN, SET};

use super::calls::put_banks;
use super::{devices, memory};

/// The most parts of a walk.
const PARTS: u32 = 6;

pub fn walk_case(random: &mut Random, geometry: &Geometry, case: &mut Case) {
    let pair = memory::sequence_pair(random);
    let banks = memory::banks(random, geometry, pair);
    put_banks(random, case, banks);
    let sram = memory::sram(random, &case.device);
    case.lists.push(List::from_words(&sram));
    let mut moves = Moves::default();
    for _ in 0..random.between(1, PARTS) {
        part(random, geometry, &mut moves);
    }
    case.numbers = moves.numbers();
}

/// The moves of a walk as a line gives them.
#[derive(Default)]
pub struct Moves {
    count: u32,
    numbers: Vec<u32>,
}

impl Moves {
    fn put(&mut self, numbers: &[u32]) {
        self.count += 1;
        self.numbers.extend(numbers);
    }

    pub fn store(&mut self, register: usize, form: u32, value: u32) {
        self.put(&[0, register as u32, form, value]);
    }

    pub fn register_read(&mut self, register: u32) {
        self.put(&[1, register]);
    }

    pub fn step(&mut self) {
        self.put(&[2]);
    }

    pub fn reset(&mut self, kind: u32, mask: [u32; 4]) {
        self.put(&[3, kind, mask[0], mask[1], mask[2], mask[3]]);
    }

    pub fn start_up(&mut self) {
        self.put(&[4]);
    }

    pub fn flash_read(&mut self, address: u32) {
        self.put(&[5, address]);
    }

    /// The count, then the moves.
    pub fn numbers(&self) -> Vec<u32> {
        [&[self.count][..], &self.numbers].concat()
    }
}

fn part(random: &mut Random, geometry: &Geometry, moves: &mut Moves) {
    match random.below(8) {
        0..=3 => operation(random, geometry, moves),
        4 => moves.reset(random.below(4), random.mask()),
        5 => moves.start_up(),
        6 => moves.flash_read(devices::address(random, geometry)),
        _ => {
            let register = random.below(12) as usize;
            moves.store(register, random.below(5), random.edge_word());
        }
    }
}

/// A launch, with a read before some of its stores, and some steps.
fn operation(random: &mut Random, geometry: &Geometry, moves: &mut Moves) {
    let polling = random.one_in(2);
    let mut stores = vec![
        (NVMADDR, PLAIN, devices::address(random, geometry)),
        (NVMDATA0, PLAIN, random.edge_word()),
        (NVMCON, CLEAR, WREN),
        (NVMCON, PLAIN, random.pick(&[0, 1, 2, 3, 4, 5, 6, 7, 8])),
        (NVMCON, SET, WREN),
    ];
    stores.extend(KEYS.map(|key| (NVMKEY, PLAIN, key)));
    stores.push((NVMCON, SET, WR));
    for (register, form, value) in stores {
        if polling && random.one_in(3) {
            moves.register_read(random.below(12));
        }
        moves.store(register, form, value);
    }
    let loading = random.one_in(2);
    for _ in 0..random.below(10) {
        if loading && random.one_in(3) {
            load(random, geometry, moves);
        }
        moves.step();
    }
    if random.one_in(3) {
        moves.flash_read(devices::inside_address(random, geometry) & !3);
    }
}

/// A store to NVMADDR, NVMDATA0 to 3 or NVMSRCADDR, or a flash read, while the operation runs.
fn load(random: &mut Random, geometry: &Geometry, moves: &mut Moves) {
    let address = devices::address(random, geometry);
    let data = NVMDATA0 + random.below(4) as usize;
    match random.below(4) {
        0 => moves.store(NVMADDR, random.below(4), address),
        1 => moves.store(data, random.below(4), random.edge_word()),
        2 => moves.store(NVMSRCADDR, random.below(4), random.edge_word()),
        _ => moves.flash_read(address & !3),
    }
}
