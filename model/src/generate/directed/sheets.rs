//! Page sheets: quads and numbers around their widths, sides, protection, buffers and declines.

mod contents;
mod marks;

use crate::cases::Case;
use crate::device::Device;
use crate::geometry::{Banks, Geometry};
use crate::sheet::{page_sheet as write_sheet, sheet_bytes};

use super::impossible::reasons;
use super::orders::{combined, Change, DEVICE, GEOMETRY, LENGTHS};
use super::parts::*;

pub fn cases() -> Vec<Case> {
    let mut cases = [contents::cases(), marks::cases()].concat();
    for geometry in [SMALL, SEVERAL] {
        buffers(&geometry, &mut cases);
    }
    for geometry in [MANY_PAGES, LARGEST] {
        long_buffers(&geometry, &mut cases);
    }
    cases.extend(ordered_sheets().into_iter().map(|(_, case)| case));
    numbers(&mut cases);
    for geometry in [SMALL, SEVERAL] {
        lengths(&geometry, &mut cases);
    }
    for device in reasons() {
        cases.push(sheet(&SMALL, device, &blank(&SMALL)));
    }
    cases
}

/// A sheet into a buffer of its length, filled with zeros.
fn sheet(geometry: &Geometry, device: Device, banks: &Pair) -> Case {
    let buffer = vec![0; sheet_bytes(geometry) as usize];
    page_sheet(geometry, device, banks, &buffer)
}

/// Buffers around the sheet's length, whose bytes differ from the sheet's or are the sheet's but for one.
fn buffers(geometry: &Geometry, cases: &mut Vec<Case>) {
    let right = sheet_bytes(geometry);
    let banks = blank(geometry);
    let lengths = [
        0,
        1,
        17,
        right / 2,
        right - 34,
        right - 17,
        right - 2,
        right - 1,
    ];
    let longer = [0, 1, 2, 17, 34, right].map(|more| right + more);
    for length in each_once(&[&lengths[..], &longer].concat()) {
        let buffer: Vec<u8> = (0..length).map(|index| 128 + (index % 127) as u8).collect();
        cases.push(page_sheet(geometry, idle(), &banks, &buffer));
    }
    let written = written(geometry, banks.clone());
    cases.push(page_sheet(geometry, idle(), &banks, &written));
    for index in each_once(&[0, 1, 16, 17, right / 2, right - 1, right, right + 1]) {
        let mut buffer = written.clone();
        buffer[index as usize] ^= 1;
        cases.push(page_sheet(geometry, idle(), &banks, &buffer));
    }
}

/// The longest sheet, into buffers a byte short, of its length, and a byte long.
fn long_buffers(geometry: &Geometry, cases: &mut Vec<Case>) {
    let right = sheet_bytes(geometry) as usize;
    for length in [right - 1, right, right + 1] {
        let buffer = vec![255; length];
        cases.push(page_sheet(geometry, idle(), &blank(geometry), &buffer));
    }
}

/// The sheet of an idle device, and two bytes more.
fn written(geometry: &Geometry, banks: Pair) -> Vec<u8> {
    let [mut one, mut two] = banks;
    let banks = Banks {
        one: &mut one,
        two: &mut two,
    };
    let mut buffer = vec![0; sheet_bytes(geometry) as usize + 2];
    // An accepted sheet; a declined one would leave zeros.
    let _ = write_sheet(geometry.numbers(), &idle(), &banks, &mut buffer);
    buffer
}

/// "18, after 1 to 3": each case with the lowest number that applies, 0 where none does.
pub fn ordered_sheets() -> Vec<(u32, Case)> {
    const BUFFERS: [Change; 2] = [buffer_shorter, buffer_empty];
    combined(
        sheet(&SMALL, idle(), &blank(&SMALL)),
        &[GEOMETRY, LENGTHS, DEVICE, (18, &BUFFERS)],
    )
}

fn buffer_shorter(case: &mut Case) {
    case.lists[2].length -= 1;
}

fn buffer_empty(case: &mut Case) {
    case.lists[2].length = 0;
}

/// Q, B and P just outside, and P around the limits of 64 and 128, with banks and a buffer as long as they would ask for.
fn numbers(cases: &mut Vec<Case>) {
    for (row_quads, boot_pages, program_pages) in [
        (0, 1, 1),
        (3, 1, 1),
        (12, 1, 1),
        (129, 1, 1),
        (256, 1, 1),
        (1, 0, 1),
        (1, 6, 1),
        (1, 1, 0),
        (1, 1, 64),
        (1, 1, 65),
        (1, 1, 127),
        (1, 1, 128),
        (1, 1, 129),
    ] {
        let geometry = geometry(row_quads, boot_pages, program_pages);
        let words = geometry.bank_words() as usize;
        let banks = [vec![0; words], vec![0; words]];
        cases.push(sheet(&geometry, idle(), &banks));
    }
}

/// One bank a word or a page short or long, or empty.
fn lengths(geometry: &Geometry, cases: &mut Vec<Case>) {
    let (right, page) = (geometry.bank_words(), geometry.page_words());
    for bank in 0..2 {
        for length in [right - 1, right + 1, right - page, right + page, 0] {
            let mut banks = blank(geometry);
            banks[bank].resize(length as usize, 0);
            cases.push(sheet(geometry, idle(), &banks));
        }
    }
}
