//! Quads that aren't all ones: how many, which, and in which page; page numbers of each width.

use crate::cases::Case;
use crate::geometry::{Geometry, ALL_ONES, ROW_QUADS};

use super::super::parts::*;
use super::sheet;

pub fn cases() -> Vec<Case> {
    let mut cases = Vec::new();
    for row_quads in ROW_QUADS {
        counts(&geometry(row_quads, 1, 1), &mut cases);
        equal_words(&geometry(row_quads, 1, 1), &mut cases);
    }
    single_quads(&mut cases);
    page_edges(&SEVERAL, &mut cases);
    for geometry in [SMALL, SEVERAL, MANY_PAGES, LARGEST] {
        cases.push(sheet(&geometry, idle(), &named(&geometry)));
    }
    cases
}

/// Counts on both sides of a further column, none, and all, over the four pages.
fn counts(geometry: &Geometry, cases: &mut Vec<Case>) {
    let all = geometry.page_quads();
    let mut counts = each_once(&[0, 1, 9, 10, 99, 100, 999, 1_000, all - 1, all]);
    counts.retain(|count| *count <= all);
    for some in counts.chunks(4) {
        let mut pages = some.to_vec();
        pages.resize(4, 0);
        let banks = [[pages[0], pages[1]], [pages[2], pages[3]]];
        cases.push(sheet(
            geometry,
            idle(),
            &banks.map(|bank| counted(bank, all)),
        ));
    }
}

/// A bank of two pages, the first `count` quads of each with one bit at 0.
fn counted(pages: [u32; 2], page_quads: u32) -> Vec<u32> {
    let mut words = Vec::new();
    for count in pages {
        for number in 0..page_quads {
            let mut quad = [ALL_ONES; 4];
            if number < count {
                quad[number as usize % 4] = !(1 << (number % 32));
            }
            words.extend(quad);
        }
    }
    words
}

/// Banks of one word, of which one is blank or almost.
fn equal_words(geometry: &Geometry, cases: &mut Vec<Case>) {
    let words = geometry.bank_words() as usize;
    for [one, two] in [[0, ALL_ONES], [ALL_ONES, !1], [0x7FFF_FFFF, 0]] {
        let banks = [vec![one; words], vec![two; words]];
        cases.push(sheet(geometry, idle(), &banks));
    }
}

/// Quads that differ from all ones in one bit, in one word, in all but one, or in each half of a word.
fn single_quads(cases: &mut Vec<Case>) {
    let mut put = |quad: [u32; 4]| {
        let words = SMALL.bank_words() as usize;
        let mut banks = [vec![ALL_ONES; words], vec![ALL_ONES; words]];
        banks[1][36..40].copy_from_slice(&quad);
        cases.push(sheet(&SMALL, idle(), &banks));
    };
    for word in 0..4 {
        for other in [!1, 0x7FFF_FFFF, 0] {
            let mut quad = [ALL_ONES; 4];
            quad[word] = other;
            put(quad);
        }
        let mut quad = [0; 4];
        quad[word] = ALL_ONES;
        put(quad);
    }
    put([0xFFFF_0000, 0x0000_FFFF, 0xAAAA_AAAA, 0x5555_5555]);
    put([0xFFFF_0000, 0x0000_FFFF, ALL_ONES, ALL_ONES]);
    put([ALL_ONES; 4]);
    across_quads(cases);
}

/// Four words of all ones that are not a quad.
fn across_quads(cases: &mut Vec<Case>) {
    for first in 1..4 {
        let mut banks = filled(&SMALL, 0);
        banks[0][40 + first..44 + first].fill(ALL_ONES);
        cases.push(sheet(&SMALL, idle(), &banks));
    }
}

/// One word that isn't all ones, the first or the last of each page.
fn page_edges(geometry: &Geometry, cases: &mut Vec<Case>) {
    let (words, page) = (geometry.bank_words() as usize, geometry.page_words());
    for number in 0..geometry.pages() {
        for index in [number * page, number * page + page - 1] {
            for bank in 0..2 {
                let mut banks = [vec![ALL_ONES; words], vec![ALL_ONES; words]];
                banks[bank][index as usize] = 0;
                cases.push(sheet(geometry, idle(), &banks));
            }
        }
    }
}
