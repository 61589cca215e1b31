//! Pages handed back: their numbers around N, and the bank's length.

use crate::cases::Case;
use crate::geometry::{Geometry, ALL_ONES, ROW_QUADS};

use super::parts::*;

pub fn cases() -> Vec<Case> {
    let mut cases = Vec::new();
    for row_quads in ROW_QUADS {
        numbers(&geometry(row_quads, 2, 3), &mut cases);
    }
    for geometry in [SMALL, MANY_PAGES, LARGEST] {
        numbers(&geometry, &mut cases);
        lengths(&geometry, &mut cases);
    }
    far_numbers(&mut cases);
    cases
}

fn numbers(geometry: &Geometry, cases: &mut Vec<Case>) {
    let (boot, pages) = (geometry.boot_pages, geometry.pages());
    for number in each_once(&[0, boot - 1, boot, pages - 1, pages, pages + 1, ALL_ONES]) {
        cases.push(page(geometry, &first_words(geometry), number));
    }
}

/// A bank whose pages each begin with their number.
fn first_words(geometry: &Geometry) -> Vec<u32> {
    let mut words = vec![ALL_ONES; geometry.bank_words() as usize];
    for number in 0..geometry.pages() {
        words[(number * geometry.page_words()) as usize] = number;
    }
    words
}

/// A bank one word too short or too long, empty, or a page short; page 0 is there in most of them.
fn lengths(geometry: &Geometry, cases: &mut Vec<Case>) {
    let words = geometry.bank_words() as usize;
    let without = words - geometry.page_words() as usize;
    for length in [words - 1, words + 1, 0, without] {
        let mut bank = vec![7; words + 1];
        bank.truncate(length);
        for number in [0, geometry.pages() - 1, geometry.pages()] {
            cases.push(page(geometry, &bank, number));
        }
    }
}

/// Numbers whose first word or byte, cut to 32 or 16 bits, would be in the bank.
fn far_numbers(cases: &mut Vec<Case>) {
    for number in [
        256,
        65_536,
        1 << 25,
        1 << 27,
        1 << 31,
        (1 << 27) + 1,
        ALL_ONES - 1,
    ] {
        cases.push(page(&SMALL, &first_words(&SMALL), number));
    }
}
