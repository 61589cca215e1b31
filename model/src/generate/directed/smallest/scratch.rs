//! Trials that write the scratch banks: each one finds the originals' contents there, and they hold these afterwards.

use crate::cases::Case;
use crate::device::*;
use crate::geometry::{Geometry, ALL_ONES, LOWER_PROGRAM};
use crate::script::Record;

use super::super::parts::*;
use super::{launch, locked_store, steps, Bench};

pub fn cases() -> Vec<Case> {
    let mut cases = Vec::new();
    for side in [0, 1] {
        for bench in [row(side), cut_row(side)] {
            programmed(&bench, &mut cases);
        }
        erased(&row(side), &mut cases);
    }
    both_banks(&mut cases);
    cases
}

/// While a row program of two quads runs, in the lower or in the upper region. Where a quad is not blank it aborts, and the next step is
/// declined as 6.
fn row(side: u32) -> Bench {
    let address = LOWER_PROGRAM + side * TWO_QUADS.region_bytes();
    let mut bench = Bench::new(TWO_QUADS, running(3, address, 0));
    bench.sram = (1..=8).collect();
    bench
}

const TWO_QUADS: Geometry = geometry(2, 1, 1);

/// The same with a second quad that is not blank.
fn cut_row(side: u32) -> Bench {
    let mut bench = row(side);
    let second = bench.geometry.page_words() as usize + 4;
    bench.banks[side as usize][second] = 0;
    bench
}

/// Steps up to the end and past it: on banks that a trial before has written the first one would abort.
fn programmed(bench: &Bench, cases: &mut Vec<Case>) {
    for bench in scratches(bench) {
        for count in 1..5 {
            cases.push(bench.reduce(&steps(count), 6));
        }
        let script = [&[Record::Step, locked_store(1)][..], &steps(2)].concat();
        for number in [0, 4, 5, 6] {
            cases.push(bench.reduce(&script, number));
        }
    }
}

/// The bench with scratch banks as the originals, exchanged, of other words, and but for a word of the row.
fn scratches(bench: &Bench) -> Vec<Bench> {
    let [one, two] = bench.banks.clone();
    let first = bench.geometry.page_words() as usize;
    let mut written = [one.clone(), two.clone()];
    for bank in &mut written {
        bank[first] = 1;
    }
    let words = one.len();
    [
        [one.clone(), two.clone()],
        [two, one],
        [vec![0; words], vec![0x5555_5555; words]],
        [vec![ALL_ONES; words], vec![ALL_ONES; words]],
        written,
    ]
    .map(|scratch| Bench {
        scratch,
        ..bench.clone()
    })
    .to_vec()
}

/// A row that aborts, as its first quad is not blank, and then an erase of its page, after which it would not.
fn erased(bench: &Bench, cases: &mut Vec<Case>) {
    let mut bench = bench.clone();
    let address = bench.device.registers[NVMADDR];
    let page = bench.geometry.page_words() as usize;
    for bank in &mut bench.banks {
        bank[page] = 0;
    }
    let quads = bench.geometry.page_quads() as usize;
    let script = [
        steps(2),
        launch(0, address),
        launch(4, address),
        steps(quads),
    ]
    .concat();
    for number in [5, 6] {
        cases.push(bench.reduce(&script, number));
        cases.push(bench.reduce(&script[1..], number));
    }
}

/// An erase of both regions, which writes both banks.
fn both_banks(cases: &mut Vec<Case>) {
    let mut bench = Bench::new(SMALL, running(7, 0, 0));
    bench.banks = named(&SMALL);
    for scratch in [bench.banks.clone(), blank(&SMALL)] {
        bench.scratch = scratch;
        for (count, number) in [(16, 6), (17, 6), (18, 6), (17, 4)] {
            cases.push(bench.reduce(&steps(count), number));
        }
        let script = [steps(9), vec![locked_store(0)]].concat();
        cases.push(bench.reduce(&script, 5));
    }
}
