//! The banks of each sign in the store: which words a turn reads and writes, and decline 19 by starts and lengths.

use crate::cases::Case;
use crate::device::*;
use crate::geometry::{Kind, Side, ALL_ONES};
use crate::list::List;
use crate::update::total;

use super::super::parts::*;
use super::members::{ordinary, reached, row, sign, Make, Member};
use super::members::{FIRST_STEP, LAST_STEP, PASSED_OVER};
use super::Bench;

/// The words of a bank of the smallest sign.
const WORDS: u32 = 64;

/// The place of the store of the new sequence word.
const SEQUENCE: u32 = 240;

pub fn cases() -> Vec<Case> {
    let mut cases = Vec::new();
    own_words(&mut cases);
    any_order(&mut cases);
    rows(&mut cases);
    overlaps(&mut cases);
    both_of_one_sign(&mut cases);
    overhangs(&mut cases);
    far_starts(&mut cases);
    passed_over(&mut cases);
    cases
}

/// The sign's own t, the word that a step erases, and the quad that one programs, of both old banks.
fn signs_at(place: u32) -> Vec<Member> {
    let swaps = [false, true, false].into_iter().zip(0..);
    let signs = swaps.map(|(swapped, number)| sign(SMALL, number, swapped));
    signs.map(|sign| reached(&sign, place)).collect()
}

/// One sign after another is served at places whose turns read and write its banks.
fn own_words(cases: &mut Vec<Case>) {
    let last = total(&SMALL) - 2;
    for place in [0, FIRST_STEP, LAST_STEP, 45, 55, SEQUENCE, last, last + 1] {
        let mut bench = Bench::small(&signs_at(place));
        bench.image[32] = 0x1234_5678;
        bench.image[0] = 0x9ABC_DEF0;
        for served in 0..3 {
            cases.push(bench.after((served + 2) % 3).call(3));
            cases.push(bench.waiting(&[served]).call(32));
        }
    }
}

/// Starts in any order, with words between the banks and around them that no turn changes.
fn any_order(cases: &mut Vec<Case>) {
    let starts = [
        [[0, 64], [128, 192], [256, 320]],
        [[320, 256], [192, 128], [64, 0]],
        [[128, 0], [320, 64], [192, 256]],
        [[1, 66], [131, 196], [261, 327]],
        [[258, 1], [65, 324], [129, 193]],
    ];
    for place in [FIRST_STEP, SEQUENCE] {
        let bench = Bench::small(&signs_at(place));
        for starts in starts {
            for last in 0..3 {
                cases.push(moved(&bench, &starts, 393, last));
            }
        }
    }
}

/// The banks of a bench at other starts, in a store of so many words.
fn moved(bench: &Bench, starts: &[[u32; 2]], length: usize, last: u32) -> Case {
    let mut case = bench.after(last).call(3);
    let before = case.lists[0].words();
    let mut store = vec![0x0BAD_0BAD; length];
    for (sign, starts) in case.row.signs.iter_mut().zip(starts) {
        for (old, new) in sign.starts.iter().zip(starts) {
            let words = &before[*old as usize..(*old + WORDS) as usize];
            store[*new as usize..(*new + WORDS) as usize].copy_from_slice(words);
        }
        sign.starts = *starts;
    }
    case.lists[0] = List::from_words(&store);
    case
}

/// "one SRAM serve all": rows that are programmed from it, each sign by its own NVMSRCADDR.
fn rows(cases: &mut Vec<Case>) {
    let start = SMALL.window_start(Kind::Program, Side::Upper);
    for sources in [
        [0, 16],
        [16, 0],
        [4, 4],
        [16, 20],
        [17, 0],
        [0, 0xFFFF_FFF0],
    ] {
        let members = sources.into_iter().zip(0..).map(|(source, number)| {
            let device = with_register(running(3, start, 0), NVMSRCADDR, source);
            reached(&sign(SMALL, number, false), 0)
                .with(device)
                .placed(FIRST_STEP)
        });
        let mut bench = Bench::small(&members.collect::<Vec<_>>());
        bench.sram = (1..=8).collect();
        cases.push(bench.call(2));
        cases.push(bench.after(0).call(2));
    }
}

/// A row of three ordinary signs whose banks stand so far apart that one of them can be put beside each other one.
fn spread() -> Case {
    let mut case = Bench::small(&row(&[ordinary as Make; 3])).call(1);
    for (sign, number) in case.row.signs.iter_mut().zip(0..) {
        sign.starts = [0, 1].map(|bank| 200 * (2 * number + bank) + 100);
    }
    case.lists[0] = List::from_words(&[ALL_ONES; 1_300]);
    case
}

/// Each pair of banks, either before the other: touching, overlapping by one word, and equal.
fn overlaps(cases: &mut Vec<Case>) {
    for first in 0..6 {
        for second in (0..6).filter(|second| *second != first) {
            for distance in [WORDS, WORDS - 1, 0] {
                let mut case = spread();
                let beside = case.row.signs[first / 2].starts[first % 2];
                case.row.signs[second / 2].starts[second % 2] = beside + distance;
                cases.push(case);
            }
        }
    }
}

/// Bank 1 and bank 2 of one sign, before and behind each other, in a row of it alone.
fn both_of_one_sign(cases: &mut Vec<Case>) {
    for distance in [0, 1, WORDS - 1, WORDS, WORDS + 1] {
        for starts in [[0, distance], [distance, 0]] {
            let mut case = Bench::small(&row(&[ordinary])).call(1);
            case.lists[0].length = 129;
            case.row.signs[0].starts = starts;
            cases.push(case);
        }
    }
}

/// "overhanging banks": stores around the length that the banks of one and of two signs need, for each bank that stands last.
fn overhangs(cases: &mut Vec<Case>) {
    for length in [0, 1, 63, 64, 65, 127, 128, 129, 192] {
        for starts in [[0, WORDS], [WORDS, 0]] {
            let mut case = Bench::small(&row(&[ordinary])).call(1);
            case.lists[0] = List::from_words(&vec![7; length]);
            case.row.signs[0].starts = starts;
            cases.push(case);
        }
    }
    for bank in 0..4 {
        for start in [192, 193, 255, 256, 257] {
            let mut case = Bench::small(&row(&[ordinary as Make; 2])).call(1);
            case.row.signs[1].starts[1] = case.row.signs[bank / 2].starts[bank % 2];
            case.row.signs[bank / 2].starts[bank % 2] = start;
            cases.push(case);
        }
    }
}

/// Starts so far that a sum of 32 bits would wrap: to the store's start, into it, and just not.
fn far_starts(cases: &mut Vec<Case>) {
    for start in [
        ALL_ONES,
        ALL_ONES - 1,
        ALL_ONES - WORDS + 2,
        ALL_ONES - WORDS + 1,
        ALL_ONES - WORDS,
        0x8000_0000,
        0x8000_0040,
        0x4000_0000,
        0x4000_0040,
    ] {
        for bank in 0..4 {
            let mut case = Bench::small(&row(&[ordinary as Make; 2])).call(1);
            case.row.signs[bank / 2].starts[bank % 2] = start;
            cases.push(case);
        }
        let mut case = Bench::small(&row(&[ordinary])).call(1);
        case.row.signs[0].starts = [start, start];
        cases.push(case);
    }
}

/// Banks of signs that are passed over are judged, too.
fn passed_over(cases: &mut Vec<Case>) {
    for make in PASSED_OVER {
        for start in [64, 63, 192, 193, ALL_ONES] {
            let mut case = Bench::small(&row(&[ordinary, make])).call(1);
            case.row.signs[1].starts = [128, start];
            case.row.signs[0].starts[1] = if start == 64 { 192 } else { 64 };
            cases.push(case);
        }
    }
}
