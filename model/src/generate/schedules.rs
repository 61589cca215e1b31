//! Rows of signs at every kind of place, some of them waiting, with their banks in one store; and lists of calls.

use crate::cases::{Call, Case};
use crate::device::Device;
use crate::geometry::{Geometry, ALL_ONES};
use crate::list::List;
use crate::random::Random;
use crate::schedule::{Row, Sign, MOST_SIGNS};
use crate::update::total;

use super::calls::{put_image, put_sram_words};
use super::places::{accepted_start, launch_place, place, run_to_place, step_place};
use super::{devices, memory};

/// How seldom one input is spoiled: once in this many cases.
const SPOILED: u32 = 14;

/// A longer store holds the banks of one sign.
const STORE_WORDS: u32 = 1 << 15;

/// Rows of longer banks get few calls.
const SHORT_BANK: u32 = 4_096;

/// A sign with the words of its banks.
struct Member {
    device: Device,
    place: u32,
    banks: [Vec<u32>; 2],
}

pub fn schedule_case(random: &mut Random, geometry: &Geometry, case: &mut Case) {
    let image = few_words(random, geometry);
    let fresh = case.call == Call::RowRun && random.one_in(2);
    let count = if fresh {
        fresh_count(random).min(most_signs(geometry))
    } else {
        count(random, geometry)
    };
    let member = |_| member(random, geometry, &image, fresh);
    let members: Vec<Member> = (0..count).map(member).collect();
    let sram = sram(random, geometry, &members);
    put_row(random, geometry, case, members);
    if !fresh {
        case.row.queue = queue(random, count);
        case.row.last = last(random, count);
    }
    put_image(random, case, image);
    put_sram_words(random, case, &sram);
    case.numbers = match case.call {
        Call::Schedule => vec![most(random, &case.row)],
        _ => calls(random, geometry, &case.row),
    };
}

/// How many signs have their banks in a store.
fn most_signs(geometry: &Geometry) -> u32 {
    (STORE_WORDS / (2 * geometry.bank_words())).max(1)
}

fn fresh_count(random: &mut Random) -> u32 {
    random.pick(&[1, 2, 2, 3, 3, 4, 5])
}

/// Few signs most often, seldom none or one too many.
fn count(random: &mut Random, geometry: &Geometry) -> u32 {
    let most = MOST_SIGNS as u32;
    let count = match random.below(16) {
        0 => 1,
        1 => most,
        2 => random.between(7, most),
        3 if random.one_in(2) => return 0,
        3 => most + 1,
        _ => random.between(2, 6),
    };
    count.min(most_signs(geometry))
}

/// Blank but for few words, so that a line with many signs is not long.
fn few_words(random: &mut Random, geometry: &Geometry) -> Vec<u32> {
    let mut words = vec![ALL_ONES; geometry.bank_words() as usize];
    for _ in 0..random.below(8) {
        let index = random.below(geometry.bank_words()) as usize;
        words[index] = random.edge_word();
    }
    words
}

/// A sign in the state that its update has at a place; seldom another device or place.
fn member(random: &mut Random, geometry: &Geometry, image: &[u32], fresh: bool) -> Member {
    let mut start = accepted_start(random, geometry);
    let index = geometry.sequence_index();
    for bank in &mut start.banks {
        let sequence = bank[index];
        *bank = few_words(random, geometry);
        bank[index] = sequence;
    }
    start.image = image.to_vec();
    let reached = if fresh { 0 } else { reached(random, geometry) };
    let mut place = run_to_place(geometry, &mut start, reached);
    if !fresh {
        odd(random, geometry, &mut start.device, &mut place);
    }
    Member {
        device: start.device,
        place,
        banks: start.banks,
    }
}

/// Most often a place whose action launches, or a step.
fn reached(random: &mut Random, geometry: &Geometry) -> u32 {
    match random.below(8) {
        0..=2 => launch_place(random, geometry),
        3 | 4 => step_place(random, geometry),
        5 => total(geometry),
        6 => random.below(13),
        _ => place(random, geometry),
    }
}

/// Another place, another device, a launch that may fail, or the sign as it is.
fn odd(random: &mut Random, geometry: &Geometry, device: &mut Device, at: &mut u32) {
    match random.below(12) {
        0 => *at = place(random, geometry),
        1 => *device = devices::device(random, geometry),
        2 => {
            *device = devices::launching(random, geometry);
            *at = launch_place(random, geometry);
        }
        3 => *device = devices::impossible(random, geometry),
        _ => {}
    }
}

/// For one of the signs.
fn sram(random: &mut Random, geometry: &Geometry, members: &[Member]) -> Vec<u32> {
    if members.is_empty() || random.one_in(2) {
        return vec![0; random.below(8) as usize];
    }
    let number = random.below(members.len() as u32) as usize;
    memory::row_sram(random, geometry, &members[number].device)
}

/// The store, with the banks in any order, touching or not; seldom they overlap or overhang. As a row that nobody served.
fn put_row(random: &mut Random, geometry: &Geometry, case: &mut Case, members: Vec<Member>) {
    let words = geometry.bank_words();
    let mut store = Vec::new();
    let mut signs: Vec<Sign> = members.iter().map(unplaced).collect();
    for slot in shuffled(random, 2 * members.len() as u32) {
        let (number, bank) = (slot as usize / 2, slot as usize % 2);
        gap(random, &mut store);
        signs[number].starts[bank] = store.len() as u32;
        store.extend(&members[number].banks[bank]);
    }
    gap(random, &mut store);
    if random.one_in(SPOILED) && !signs.is_empty() {
        misplace(random, words, store.len() as u32, &mut signs);
    }
    let last = (signs.len() as u32).saturating_sub(1);
    case.row = Row {
        signs,
        queue: Vec::new(),
        last,
    };
    case.lists = vec![List::from_words(&store)];
}

fn unplaced(member: &Member) -> Sign {
    Sign {
        device: member.device,
        place: member.place,
        starts: [0; 2],
    }
}

/// Few words between two banks, most often none.
fn gap(random: &mut Random, store: &mut Vec<u32>) {
    if random.one_in(4) {
        for _ in 0..random.between(1, 5) {
            store.push(random.edge_word());
        }
    }
}

/// One start moves to where its bank overlaps another or overhangs the store.
fn misplace(random: &mut Random, words: u32, length: u32, signs: &mut [Sign]) {
    let count = signs.len() as u32;
    let number = random.below(count) as usize;
    let other = signs[random.below(count) as usize].starts[random.below(2) as usize];
    let start = match random.below(6) {
        0 => other,
        1 => other + words - 1,
        2 => other.saturating_sub(words - 1),
        3 => length - words + random.between(1, words),
        4 => ALL_ONES - words + random.below(3),
        _ => random.edge_word(),
    };
    signs[number].starts[random.below(2) as usize] = start;
}

/// The numbers below a count in any order.
fn shuffled(random: &mut Random, count: u32) -> Vec<u32> {
    let mut rest: Vec<u32> = (0..count).collect();
    let mut order = Vec::new();
    while !rest.is_empty() {
        order.push(rest.swap_remove(random.below(rest.len() as u32) as usize));
    }
    order
}

/// Some records in any order; seldom one twice, or one past the list.
fn queue(random: &mut Random, count: u32) -> Vec<u32> {
    let mut queue = shuffled(random, count);
    queue.truncate(match random.below(4) {
        0 => 0,
        1 => random.below(3) as usize,
        2 => queue.len(),
        _ => random.below(count + 1) as usize,
    });
    if random.one_in(SPOILED) {
        let past = [count, count + 1, 0x8000_0000, ALL_ONES];
        let record = match queue.first() {
            Some(first) if random.one_in(2) => *first,
            _ => random.pick(&past),
        };
        queue.insert(random.below(queue.len() as u32 + 1) as usize, record);
    }
    queue
}

fn last(random: &mut Random, count: u32) -> u32 {
    match random.below(SPOILED) {
        0 => random.pick(&[count, count + 1, 0x8000_0000, ALL_ONES]),
        _ => random.below(count.max(1)),
    }
}

/// K around the number of signs with WR set, or any.
fn most(random: &mut Random, row: &Row) -> u32 {
    let (running, most) = (row.running() as u32, MOST_SIGNS as u32);
    match random.below(SPOILED) {
        0 => random.pick(&[0, most + 1, 0x8000_0000, ALL_ONES]),
        1 => random.between(1, most),
        2..=4 => running + 1,
        5..=9 => running.max(1),
        _ => random.between(1, 3),
    }
}

/// A count and so many K, most often one and the same; few where the banks are long.
fn calls(random: &mut Random, geometry: &Geometry, row: &Row) -> Vec<u32> {
    let short = geometry.bank_words() <= SHORT_BANK;
    let count = random.between(1, if short { 90 } else { 9 });
    let usual = most(random, row);
    let mut numbers = vec![count];
    for _ in 0..count {
        numbers.push(match random.below(30) {
            0 => most(random, row),
            _ => usual,
        });
    }
    numbers
}
