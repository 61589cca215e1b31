//! Calls to which no, one or several declines apply: the lowest number is given.

use crate::cases::Case;
use crate::device::*;
use crate::geometry::{ALL_ONES, LOWER_BOOT, SRAM_LIMIT, UPPER_BOOT};
use crate::list::List;
use crate::sequence::word_of;
use crate::store::{PLAIN, SET};
use crate::update::total;

use super::parts::*;

pub type Change = fn(&mut Case);

/// A decline's number, and changes each of which makes it apply.
pub type Cause = (u32, &'static [Change]);

pub fn cases() -> Vec<Case> {
    ordered().into_iter().map(|(_, case)| case).collect()
}

/// Each case with the lowest number that applies, 0 where none does.
pub fn ordered() -> Vec<(u32, Case)> {
    let (banks, running) = (blank(&SMALL), running(5, 0, 0));
    let stored = store(&SMALL, idle(), NVMPWP, PLAIN, 1);
    let reads = [UPPER_BOOT, LOWER_BOOT].map(|address| {
        let read = flash_read(&SMALL, running, &banks, address);
        combined(read, &[GEOMETRY, MEMORY, DEVICE, (8, &ADDRESSES)])
    });
    let torn = reset(&SMALL, running, &banks, &[], 0, [0; 4]);
    [
        combined(stored, &[GEOMETRY, DEVICE, (4, &FORMS), RUNNING]),
        combined(
            register_read(&SMALL, idle(), 2),
            &[GEOMETRY, DEVICE, REGISTER],
        ),
        reads.concat(),
        combined(
            lower_bank(&SMALL, idle(), &banks),
            &[GEOMETRY, LENGTHS, DEVICE],
        ),
        combined(
            page(&SMALL, &banks[0], 1),
            &[GEOMETRY, (2, &[longer]), (8, &PAGES)],
        ),
        combined(
            step(&SMALL, running, &banks, &[]),
            &[GEOMETRY, MEMORY, DEVICE, IDLE],
        ),
        combined(torn, &[GEOMETRY, MEMORY, DEVICE, (7, &KINDS)]),
        combined(start_up(&SMALL, idle()), &[GEOMETRY, DEVICE, RUNNING]),
        update_starts(),
        turns(),
    ]
    .concat()
}

fn update_starts() -> Vec<(u32, Case)> {
    let banks = blank(&SMALL);
    combined(
        update_start(&SMALL, idle(), &banks, &vec![0; banks[0].len()]),
        &START,
    )
}

/// A place past the total has no action, so that neither 5 nor 6 applies beside 13.
fn turns() -> Vec<(u32, Case)> {
    let banks = blank(&SMALL);
    let image = vec![0; banks[0].len()];
    let memory: Cause = (2, &[longer, second_shorter, image_shorter, long_fourth]);
    let store = turn(&SMALL, idle(), &banks, &image, &[], 0);
    let running = running(4, UPPER_BOOT, 0);
    let step = turn(&SMALL, running, &banks, &image, &[], FIRST_STEP);
    let past: Cause = (13, &[place_past, place_far]);
    [
        combined(
            store.clone(),
            &[GEOMETRY, memory, DEVICE, (5, &[runs_in_boot_pages])],
        ),
        combined(step.clone(), &[GEOMETRY, memory, DEVICE, IDLE]),
        combined(store, &[GEOMETRY, memory, DEVICE, past]),
        combined(step, &[GEOMETRY, memory, DEVICE, past]),
    ]
    .concat()
}

/// The place of an update's first flash step.
const FIRST_STEP: u32 = 19;

/// Every choice of declines, with one change for each of them.
pub fn combined(base: Case, causes: &[Cause]) -> Vec<(u32, Case)> {
    let mut cases = vec![(0, base)];
    for (number, changes) in causes {
        for (lowest, case) in cases.clone() {
            for change in *changes {
                let mut case = case.clone();
                change(&mut case);
                let lowest = if lowest == 0 { *number } else { lowest };
                cases.push((lowest, case));
            }
        }
    }
    cases
}

pub const GEOMETRY: Cause = (1, &[three_quads]);
pub const LENGTHS: Cause = (2, &[longer, second_shorter]);
const MEMORY: Cause = (2, &[longer, second_shorter, long_sram]);
pub const DEVICE: Cause = (3, &[key_step_four, step_far]);
/// The declines of an update start of the smallest sign.
pub const START: [Cause; 7] = [
    GEOMETRY,
    (2, &[longer, image_shorter]),
    (3, &[key_step_four]),
    (5, &[runs_in_boot_pages]),
    (10, &[other_word_zero, swaps_differ]),
    (11, &[last_sequence]),
    (12, &[upper_locked, region_protected]),
];
const REGISTER: Cause = (4, &[register_eleven]);
const RUNNING: Cause = (5, &[runs]);
const IDLE: Cause = (6, &[idles]);

const FORMS: [Change; 3] = [register_eleven, form_four, key_form];
const ADDRESSES: [Change; 2] = [outside, unaligned];
const PAGES: [Change; 2] = [page_past, page_far];
const KINDS: [Change; 2] = [kind_three, kind_far];

/// Banks and image get the length that three quads per row would ask for.
fn three_quads(case: &mut Case) {
    case.geometry[0] = 3;
    for list in bank_lists(case) {
        list.length *= 3;
    }
}

pub fn longer(case: &mut Case) {
    case.lists[0].length += 1;
}

pub fn second_shorter(case: &mut Case) {
    case.lists[1].length -= 1;
}

pub fn long_sram(case: &mut Case) {
    case.lists[2] = List::from_words(&vec![0; SRAM_LIMIT + 1]);
}

fn image_shorter(case: &mut Case) {
    case.lists[2].length -= 1;
}

fn long_fourth(case: &mut Case) {
    case.lists[3] = List::from_words(&vec![0; SRAM_LIMIT + 1]);
}

pub fn key_step_four(case: &mut Case) {
    case.device.key_step = 4;
}

/// Impossible with WR = 0 and with WR = 1.
fn step_far(case: &mut Case) {
    case.device.step_number = ALL_ONES;
}

fn register_eleven(case: &mut Case) {
    case.numbers[0] = REGISTERS as u32;
}

fn form_four(case: &mut Case) {
    case.numbers[1] = 4;
}

fn key_form(case: &mut Case) {
    case.numbers[0] = NVMKEY as u32;
    case.numbers[1] = SET;
}

fn runs(case: &mut Case) {
    case.device.set_con(WR | WRERR | 5);
    case.device = as_launched(case.device);
}

/// NVMOP 4 in a boot page, which PWP does not concern.
fn runs_in_boot_pages(case: &mut Case) {
    case.device.set_con(WR | WRERR | 4);
    case.device.registers[NVMADDR] = UPPER_BOOT;
    case.device = as_launched(case.device);
}

fn idles(case: &mut Case) {
    case.device.clear_con(WR);
    case.device.launched = Operands::NONE;
}

fn outside(case: &mut Case) {
    case.numbers[0] = UPPER_BOOT + 2 * 128;
}

fn unaligned(case: &mut Case) {
    case.numbers[0] += 2;
}

fn page_past(case: &mut Case) {
    case.numbers[0] = SMALL.pages();
}

fn page_far(case: &mut Case) {
    case.numbers[0] = ALL_ONES;
}

fn kind_three(case: &mut Case) {
    case.numbers[0] = 3;
}

fn kind_far(case: &mut Case) {
    case.numbers[0] = ALL_ONES;
}

fn set_word(list: &mut List, word: u32) {
    let index = SMALL.sequence_index();
    list.pairs = vec![(index, word)];
}

fn other_word_zero(case: &mut Case) {
    set_word(&mut case.lists[1], 0);
}

fn swaps_differ(case: &mut Case) {
    case.device.set_con(PFSWAP);
}

fn last_sequence(case: &mut Case) {
    set_word(&mut case.lists[0], word_of(65_535));
}

fn upper_locked(case: &mut Case) {
    case.device.registers[NVMBWP] &= !UBWPULOCK;
}

fn region_protected(case: &mut Case) {
    case.device.registers[NVMPWP] |= SMALL.region_bytes();
}

fn place_past(case: &mut Case) {
    case.numbers[0] = total(&SMALL) + 1;
}

fn place_far(case: &mut Case) {
    case.numbers[0] = ALL_ONES;
}
