//! Numbers, counts of records, lengths and what the result buffer held, on both sides of each decline.

use crate::cases::Case;
use crate::device::*;
use crate::generate::refused_scripts;
use crate::geometry::{ALL_ONES, SRAM_LIMIT};
use crate::list::List;
use crate::script::{Record, BYTE_LIMIT};
use crate::smallest::MOST_RECORDS;
use crate::store::PLAIN;

use super::super::impossible::reasons;
use super::super::parts::*;
use super::{bytes, key_form, locked_store, store, Bench};

/// Numbers that a play gives, that it does not, and that no call gives.
const NUMBERS: [u32; 20] = [
    0,
    1,
    2,
    3,
    4,
    5,
    6,
    7,
    8,
    9,
    13,
    14,
    15,
    19,
    20,
    21,
    22,
    255,
    0x8000_0000,
    ALL_ONES,
];

pub fn cases() -> Vec<Case> {
    let mut cases = Vec::new();
    numbers(&mut cases);
    counts(&mut cases);
    no_scripts(&mut cases);
    results(&mut cases);
    lengths(&mut cases);
    signs(&mut cases);
    cases
}

/// "Number 0 counts as never given": of records that are all accepted, and of some that are declined.
fn numbers(cases: &mut Vec<Case>) {
    let accepted = [store(NVMADDR, PLAIN, 1), Record::Reset { kind: 2 }];
    let declined = [
        &[locked_store(1), key_form(1), Record::Step][..],
        &[Record::Step],
        &accepted,
    ]
    .concat();
    for number in NUMBERS {
        cases.push(Bench::running().reduce(&accepted, number));
        cases.push(Bench::running().reduce(&declined, number));
        cases.push(Bench::at_rest().reduce(&[], number));
    }
}

/// Counts of records around the most, and a script that is longer than the play program takes; the number shown first, last and not.
fn counts(cases: &mut Vec<Case>) {
    let most = MOST_RECORDS;
    let bench = Bench::at_rest();
    for count in [
        1,
        2,
        most - 1,
        most,
        most + 1,
        most + 2,
        2 * most,
        255,
        256,
        257,
    ] {
        let zeros = vec![store(NVMCON, PLAIN, 0); count - 1];
        let first = [&[Record::Step][..], &zeros].concat();
        let last = [&zeros[..], &[Record::Step]].concat();
        for number in [0, 4, 6] {
            cases.push(bench.reduce(&first, number));
            cases.push(bench.reduce(&last, number));
        }
    }
    for count in [BYTE_LIMIT / 8, BYTE_LIMIT / 8 + 1, 1 << 16, 1 << 20] {
        let zeros = vec![0; 8 * count];
        cases.push(bench.reduce_into(&zeros, 6, &zeros));
    }
}

/// Decline 14, of few records and of more than are taken, with and without a number that is shown.
fn no_scripts(cases: &mut Vec<Case>) {
    let bench = Bench::at_rest();
    for script in refused_scripts() {
        cases.push(bench.reduce_into(&script, 6, &vec![0; script.len()]));
    }
    let step = Record::Step.bytes();
    for count in [0, 1, MOST_RECORDS - 1, MOST_RECORDS, MOST_RECORDS + 1] {
        let good = step.repeat(count);
        for more in [&[1][..], &step[..7], &[3, 0, 0, 0, 0, 0, 0, 0]] {
            for script in [[&good, more].concat(), [more, &good].concat()] {
                for number in [0, 6] {
                    cases.push(bench.reduce_into(&script, number, &vec![0; script.len()]));
                }
            }
        }
    }
}

/// Decline 2 by the result's length, whatever the script is; what the buffer held before.
fn results(cases: &mut Vec<Case>) {
    let bench = Bench::at_rest();
    let good = bytes(&[Record::Reset { kind: 0 }, Record::Step, Record::Step]);
    let (empty, long) = (vec![], vec![0; 8 * (MOST_RECORDS + 1)]);
    for script in [&good, &good[..23].to_vec(), &empty, &long] {
        let right = script.len();
        for length in [
            0,
            right.saturating_sub(8),
            right.saturating_sub(1),
            right + 1,
            right + 8,
        ] {
            for number in [0, 6] {
                cases.push(bench.reduce_into(script, number, &vec![0; length]));
            }
        }
    }
    let numbered: Vec<u8> = (0..24).collect();
    let last = [&Record::Step.bytes()[..], &[0; 16]].concat();
    for held in [vec![1; 24], vec![0xFF; 24], numbered, good.clone(), last] {
        for number in [4, 6] {
            cases.push(bench.reduce_into(&good, number, &held));
        }
    }
}

/// Decline 2: each original and each scratch bank of no words, a word and a page short, and a word long; SRAM at its limit.
fn lengths(cases: &mut Vec<Case>) {
    for number in [4, 6] {
        let right = Bench::at_rest().reduce(&[Record::Step], number);
        for list in [0, 1, 3, 4] {
            for length in [0, 1, 32, 63, 65, 96, 128] {
                let mut case = right.clone();
                case.lists[list].length = length;
                case.lists[list].pairs.retain(|(index, _)| *index < length);
                cases.push(case);
            }
        }
        for length in [SRAM_LIMIT, SRAM_LIMIT + 1] {
            let mut case = right.clone();
            case.lists[2] = List::from_words(&vec![0; length]);
            cases.push(case);
        }
    }
}

/// Declines 1 and 3, beside a number that is shown; signs with more pages and longer rows.
fn signs(cases: &mut Vec<Case>) {
    let script = [key_form(1), Record::Step, Record::Step];
    cases.extend(REFUSED.map(|geometry| {
        let mut bench = Bench::at_rest();
        bench.geometry = geometry;
        bench.banks = [1, 2].map(|_| vec![0; geometry.bank_words() as usize]);
        bench.scratch = bench.banks.clone();
        bench.reduce(&script, 6)
    }));
    for device in reasons() {
        cases.push(Bench::new(SMALL, device).reduce(&script, 6));
    }
    for geometry in [SEVERAL, geometry(128, 1, 1), MANY_PAGES, LARGEST] {
        let bench = Bench::new(geometry, idle());
        for number in [4, 5, 6] {
            cases.push(bench.reduce(&script, number));
        }
    }
}
