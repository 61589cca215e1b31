//! Declines 1, 2, 4, 5 and 6 at their edges, one at a time.

use crate::cases::{Call, Case};
use crate::device::*;
use crate::geometry::{Geometry, ALL_ONES, LOWER_PROGRAM, SRAM_LIMIT};
use crate::store::{INVERT, PLAIN};

use super::parts::*;

pub fn cases() -> Vec<Case> {
    let mut cases = Vec::new();
    numbers(&mut cases);
    numbers_of_each_call(&mut cases);
    for geometry in [SMALL, SEVERAL] {
        bank_lengths(&geometry, &mut cases);
    }
    sram_lengths(&mut cases);
    registers_and_forms(&mut cases);
    stores_while_running(&mut cases);
    steps_while_idle(&mut cases);
    cases
}

/// Q listed or not; B and P around their ranges.
fn numbers(cases: &mut Vec<Case>) {
    let mut read = |row_quads, boot_pages, program_pages| {
        let geometry = geometry(row_quads, boot_pages, program_pages);
        cases.push(register_read(&geometry, idle(), NVMCON2 as u32));
    };
    for row_quads in (0..=130).chain([255, 256, 257, 512, 1 << 16, 1 << 31, ALL_ONES]) {
        read(row_quads, 1, 1);
    }
    for boot_pages in (0..=8).chain([256, 257, 1 << 31, ALL_ONES]) {
        read(1, boot_pages, 1);
    }
    for program_pages in
        (0..=2)
            .chain(62..=67)
            .chain(126..=131)
            .chain([256, 257, 1 << 31, ALL_ONES])
    {
        read(1, 1, program_pages);
    }
}

/// One call of each kind that decline 1 concerns, accepted on small banks.
fn accepted() -> [Case; 10] {
    let (banks, running) = (blank(&SMALL), running(4, LOWER_PROGRAM, 0));
    let image = vec![0; banks[0].len()];
    [
        store(&SMALL, idle(), NVMADDR, PLAIN, 1),
        register_read(&SMALL, idle(), 2),
        flash_read(&SMALL, idle(), &banks, LOWER_PROGRAM),
        lower_bank(&SMALL, idle(), &banks),
        page(&SMALL, &banks[0], 0),
        step(&SMALL, running, &banks, &[]),
        reset(&SMALL, running, &banks, &[], 0, [ALL_ONES; 4]),
        start_up(&SMALL, idle()),
        update_start(&SMALL, idle(), &banks, &image),
        turn(&SMALL, idle(), &banks, &image, &[], 0),
    ]
}

/// Numbers just outside, and P around the limits of 64 and 128, with banks and an image as long as they would ask for.
fn numbers_of_each_call(cases: &mut Vec<Case>) {
    for numbers in [
        [0, 1, 1],
        [3, 1, 1],
        [1, 0, 1],
        [1, 6, 1],
        [1, 1, 0],
        [1, 1, 64],
        [1, 1, 65],
        [1, 1, 127],
        [1, 1, 128],
        [1, 1, 129],
    ] {
        for mut case in accepted() {
            case.geometry = numbers;
            let words = ((numbers[1] + numbers[2]) * 32 * numbers[0]) as usize;
            for list in bank_lists(&mut case) {
                list.length = words;
                list.pairs.retain(|(index, _)| *index < words);
            }
            cases.push(case);
        }
    }
}

/// One bank, or the image, a word short, a word long, empty, a page short or long, or as long as if Q were 1.
fn bank_lengths(geometry: &Geometry, cases: &mut Vec<Case>) {
    let (right, page) = (geometry.bank_words(), geometry.page_words());
    let unscaled = right / geometry.row_quads;
    let lengths = [
        right - 1,
        right + 1,
        0,
        right - page,
        right + page,
        unscaled,
    ];
    for mut case in accepted() {
        if case.lists.is_empty() {
            continue;
        }
        case.geometry = geometry.numbers();
        let lent = bank_lists(&mut case);
        for list in lent.iter_mut() {
            list.length = right as usize;
        }
        for bank in 0..lent.len() {
            for length in each_once(&lengths) {
                let mut other = case.clone();
                let list = &mut other.lists[bank];
                list.length = length as usize;
                list.pairs.retain(|(index, _)| *index < list.length);
                cases.push(other);
            }
        }
        cases.push(case);
    }
}

/// SRAM of 16,383 to 16,386 words, and longer, for operations that use none.
fn sram_lengths(cases: &mut Vec<Case>) {
    for length in [
        SRAM_LIMIT - 1,
        SRAM_LIMIT,
        SRAM_LIMIT + 1,
        SRAM_LIMIT + 2,
        65_536,
    ] {
        for mut case in accepted() {
            let lent = [Call::FlashRead, Call::Step, Call::Reset, Call::Turn];
            if lent.contains(&case.call) {
                if let Some(sram) = case.lists.last_mut() {
                    sram.length = length;
                    sram.fill = 0;
                }
                cases.push(case);
            }
        }
    }
}

/// Register numbers above 10 and forms above 3, on each register.
fn registers_and_forms(cases: &mut Vec<Case>) {
    for register in [11, 12, 16, 255, 256, 1 << 31, ALL_ONES] {
        cases.push(register_read(&SMALL, idle(), register));
        for form in [PLAIN, INVERT] {
            cases.push(store(&SMALL, idle(), register as usize, form, 0));
        }
    }
    for register in 0..REGISTERS {
        for form in [4, 5, 256, 1 << 31, ALL_ONES] {
            let device = with_key(idle(), 3);
            cases.push(store(&SMALL, device, register, form, 0));
        }
    }
}

/// Decline 5: each register but the six of W-209, each form of NVMCON, each NVMOP.
fn stores_while_running(cases: &mut Vec<Case>) {
    for register in 0..REGISTERS {
        let device = running(4, LOWER_PROGRAM, 3);
        cases.push(store(&SMALL, device, register, PLAIN, 0));
    }
    for nvmop in 2..8 {
        for form in PLAIN..=INVERT {
            let device = running(nvmop, LOWER_PROGRAM, 0);
            cases.push(store(&SMALL, device, NVMCON, form, WREN));
        }
    }
}

/// Decline 6: each NVMOP, with WREN, key and errors as after a launch that fails.
fn steps_while_idle(cases: &mut Vec<Case>) {
    for nvmop in 0..16 {
        let device = with_con(ready(nvmop, LOWER_PROGRAM), WRERR);
        cases.push(step(&SMALL, device, &blank(&SMALL), &[]));
    }
}
