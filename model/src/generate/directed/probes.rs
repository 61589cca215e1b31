//! A probe's register reads: each register at each key step, and reads before each store of a launch, of a start-up and of an update's
//! first stores.

use crate::cases::{Call, Case};
use crate::device::*;
use crate::geometry::{LOWER_PROGRAM, UPPER_BOOT};
use crate::list::List;
use crate::store::{CLEAR, KEYS, PLAIN, SET};

use super::super::walks::Moves;
use super::parts::*;

type Store = (usize, u32, u32);

pub fn cases() -> Vec<Case> {
    let mut cases = Vec::new();
    for key_step in 0..4 {
        for register in 0..REGISTERS as u32 + 1 {
            let device = with_key(with_con(idle(), WREN | 2), key_step);
            cases.push(register_read(&SEVERAL, device, register));
        }
    }
    for stores in [
        launch_of(2, UPPER_BOOT),
        launch_of(4, LOWER_PROGRAM),
        swap(),
        prologue(),
    ] {
        one_read(&stores, &mut cases);
        reads_everywhere(&stores, &mut cases);
    }
    cases
}

fn keys() -> impl Iterator<Item = Store> {
    KEYS.into_iter().map(|key| (NVMKEY, PLAIN, key))
}

/// Data, NVMOP, WREN, the keys and WR.
fn launch_of(nvmop: u32, address: u32) -> Vec<Store> {
    let mut stores = vec![
        (NVMADDR, PLAIN, address),
        (NVMDATA0, PLAIN, 0x1234_5678),
        (NVMCON, PLAIN, nvmop),
        (NVMCON, SET, WREN),
    ];
    stores.extend(keys());
    stores.push((NVMCON, SET, WR));
    stores
}

/// A start-up's stores where BFSWAP is 1.
fn swap() -> Vec<Store> {
    keys()
        .chain([(NVMCON, SET, PFSWAP), (NVMCON2, SET, SWAPLOCK)])
        .collect()
}

/// The first stores of an update: errors cleared, the upper boot pages freed.
fn prologue() -> Vec<Store> {
    let mut stores = vec![
        (NVMCON, CLEAR, WREN),
        (NVMCON, PLAIN, 0),
        (NVMCON, SET, WREN),
    ];
    stores.extend(keys());
    stores.extend([(NVMCON, SET, WR), (NVMCON, CLEAR, WREN)]);
    stores.extend(keys());
    stores.push((NVMBWP, CLEAR, 0x1F));
    stores
}

/// One read, before each store in turn and after the last; then two steps.
fn one_read(stores: &[Store], cases: &mut Vec<Case>) {
    for place in 0..=stores.len() {
        for register in [NVMCON as u32, NVMKEY as u32, NVMCON2 as u32, 11] {
            cases.push(walk(stores, |at| u32::from(at == place), register));
        }
    }
}

/// Reads before every store up to one, and before every store from one on.
fn reads_everywhere(stores: &[Store], cases: &mut Vec<Case>) {
    for place in 0..=stores.len() {
        cases.push(walk(stores, |at| 3 * u32::from(at <= place), NVMCON as u32));
        cases.push(walk(stores, |at| u32::from(at >= place), NVMBWP as u32));
    }
}

/// The stores, with so many reads before each, on a sign with the reset values and BFSWAP.
fn walk(stores: &[Store], reads: impl Fn(usize) -> u32, register: u32) -> Case {
    let mut moves = Moves::default();
    for at in 0..=stores.len() {
        for _ in 0..reads(at) {
            moves.register_read(register);
        }
        if let Some((register, form, value)) = stores.get(at) {
            moves.store(*register, *form, *value);
        }
    }
    moves.step();
    moves.step();
    let mut case = case(Call::Walk, &SMALL, with_con(idle(), BFSWAP));
    let banks = named(&SMALL);
    lists(&mut case, &banks);
    case.lists.push(List::from_words(&[]));
    case.numbers = moves.numbers();
    case
}
