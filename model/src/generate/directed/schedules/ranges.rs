//! Decline 19 by a number: the length of the list, K, the last served and the queue, on both sides of each edge.

use crate::cases::Case;
use crate::geometry::ALL_ONES;
use crate::schedule::MOST_SIGNS;

use super::super::parts::*;
use super::members::*;
use super::Bench;

const MOST: u32 = MOST_SIGNS as u32;

pub fn cases() -> Vec<Case> {
    let mut cases = Vec::new();
    lengths(&mut cases);
    operations(&mut cases);
    last_served(&mut cases);
    repeated(&mut cases);
    overstepping(&mut cases);
    long_queues(&mut cases);
    refused(&mut cases);
    cases
}

fn bare_row(count: u32) -> Bench {
    Bench::small(&vec![bare(); count as usize])
}

/// "a list length": with the last served in the list where there is one, and K in its range and not.
fn lengths(cases: &mut Vec<Case>) {
    for count in [0, 1, 2, MOST - 1, MOST, MOST + 1, MOST + 2] {
        let bench = bare_row(count);
        for most in [0, 1, MOST, MOST + 1] {
            cases.push(bench.call(most));
        }
        cases.push(bench.after(0).call(1));
        cases.push(bench.waiting(&[0]).call(1));
    }
}

/// "K, 1 to 32"; others that are 1 or 0 in their low bits.
fn operations(cases: &mut Vec<Case>) {
    for most in [
        0,
        1,
        2,
        31,
        32,
        33,
        34,
        64,
        255,
        256,
        257,
        65_536,
        65_537,
        0x8000_0000,
        0x8000_0001,
        ALL_ONES,
    ] {
        cases.push(Bench::small(&row(&[launching, stepping])).call(most));
        cases.push(Bench::small(&row(&[finished])).call(most));
    }
}

/// The last record, and numbers past the list.
fn last_served(cases: &mut Vec<Case>) {
    for count in [1, 3, MOST] {
        let bench = bare_row(count);
        for last in [
            0,
            count - 1,
            count,
            count + 1,
            31,
            32,
            33,
            255,
            256,
            65_536,
            0x8000_0000,
            ALL_ONES,
        ] {
            cases.push(bench.after(last).call(1));
        }
    }
}

/// "a queue that repeats a record": each record again at each place of the queue.
fn repeated(cases: &mut Vec<Case>) {
    let bench = Bench::small(&row(&[launching, ordinary, finished]));
    for right in [&[0][..], &[1, 0], &[2, 0, 1]] {
        cases.push(bench.waiting(right).call(1));
        for record in right {
            for position in 0..=right.len() {
                let (front, behind) = right.split_at(position);
                let queue = [front, &[*record], behind].concat();
                cases.push(bench.waiting(&queue).call(1));
            }
        }
    }
}

/// "or oversteps the list": the first record past it and others, at each place of the queue.
fn overstepping(cases: &mut Vec<Case>) {
    let bench = Bench::small(&row(&[launching, ordinary, finished]));
    for record in [0, 2, 3, 4, 31, 32, 33, 256, 259, 0x8000_0000, ALL_ONES] {
        for queue in [&[record][..], &[1, record], &[record, 1]] {
            cases.push(bench.waiting(queue).call(1));
        }
    }
    let one = Bench::small(&row(&[launching]));
    for queue in [&[0][..], &[1], &[0, 1], &[1, 0]] {
        cases.push(one.waiting(queue).call(1));
    }
}

/// Queues of as many records as a list may have, and more.
fn long_queues(cases: &mut Vec<Case>) {
    let all: Vec<u32> = (0..MOST).collect();
    let bench = bare_row(MOST);
    for count in [MOST - 1, MOST] {
        cases.push(bench.waiting(&all[..count as usize]).call(1));
    }
    for record in [0, 15, MOST - 1, MOST, MOST + 1] {
        let queue = [&all[..], &[record]].concat();
        cases.push(bench.waiting(&queue).call(1));
        let queue = [&[record], &all[1..]].concat();
        cases.push(bench.waiting(&queue).call(1));
    }
    let two = Bench::small(&row(&[launching, stepping]));
    for count in [2, 3, 32, 33, 34] {
        let queue: Vec<u32> = (0..count).collect();
        cases.push(two.waiting(&queue).call(2));
        cases.push(two.waiting(&vec![1; count as usize]).call(2));
    }
}

/// Declines 1 and 2 beside a row that is served; an image of other lengths, SRAM at its limit.
fn refused(cases: &mut Vec<Case>) {
    for geometry in REFUSED {
        let mut bench = Bench::small(&row(&[ordinary, stepping]));
        bench.geometry = geometry;
        bench.image = vec![0; geometry.bank_words() as usize];
        cases.push(bench.call(1));
    }
    for length in [0, 1, 32, 63, 65, 96, 128] {
        let mut bench = Bench::small(&row(&[ordinary, stepping]));
        bench.image = vec![0; length];
        cases.push(bench.call(1));
    }
    for length in [16_383, 16_384, 16_385] {
        let mut bench = Bench::small(&row(&[ordinary, stepping]));
        bench.sram = vec![0; length];
        cases.push(bench.call(1));
    }
}
