//! Page sheets: banks whose pages hold few or many quads, and buffers around the sheet's length.

use crate::cases::Case;
use crate::geometry::{Banks, Geometry, ALL_ONES};
use crate::list::List;
use crate::random::Random;
use crate::sheet::{page_sheet, sheet_bytes};

use super::calls::put_banks;
use super::devices;
use super::memory::set_bytes;

/// How seldom rows are long whatever the banks' bound is: once in this many sheets.
const LONG_ROWS: u32 = 16;

/// Pages up to this length are filled whole; longer ones stay mostly equal.
const SHORT_PAGE: u32 = 256;

pub fn page_sheet_case(random: &mut Random, geometry: &Geometry, case: &mut Case) {
    let mut geometry = *geometry;
    if random.one_in(LONG_ROWS) {
        geometry = Geometry {
            row_quads: random.pick(&[16, 32, 64, 128]),
            boot_pages: 1,
            program_pages: random.between(1, 2),
        };
        case.geometry = geometry.numbers();
        case.device = devices::device(random, &geometry);
    }
    let banks = [bank(random, &geometry), bank(random, &geometry)];
    let buffer = buffer(random, &geometry, case, banks.clone());
    put_banks(random, case, banks);
    case.lists.push(List::from_bytes(&buffer));
}

/// Mostly blank or mostly full; some quads, and pages where they are short, are not as the others.
fn bank(random: &mut Random, geometry: &Geometry) -> Vec<u32> {
    let fills = [ALL_ONES, ALL_ONES, 0, !1, 0x7FFF_FFFF];
    let mut words = vec![random.pick(&fills); geometry.bank_words() as usize];
    let page_words = geometry.page_words() as usize;
    for page in words.chunks_exact_mut(page_words) {
        if geometry.page_words() <= SHORT_PAGE && random.one_in(4) {
            page.fill(random.pick(&fills));
        }
        for _ in 0..random.below(4) {
            let last = geometry.page_quads() - 1;
            let quad = match random.below(4) {
                0 => 0,
                1 => last,
                _ => random.between(0, last),
            } as usize;
            set_quad(random, &mut page[4 * quad..4 * quad + 4]);
        }
    }
    words
}

/// Blank, blank but for one bit, blank but for one word, or any words.
fn set_quad(random: &mut Random, quad: &mut [u32]) {
    quad.fill(ALL_ONES);
    let word = random.below(4) as usize;
    match random.below(4) {
        0 => {}
        1 => quad[word] = !(1 << random.below(32)),
        2 => quad[word] = random.edge_word(),
        _ => quad.fill_with(|| random.word()),
    }
}

/// Around the sheet's length; of one byte, with some others, or with much of the sheet in it.
fn buffer(random: &mut Random, geometry: &Geometry, case: &Case, banks: [Vec<u32>; 2]) -> Vec<u8> {
    let right = sheet_bytes(geometry);
    let length = match random.below(10) {
        0 => right - 1,
        1 => random.pick(&[0, right - 17, right / 2]),
        2 | 3 => right + 1,
        4 | 5 => right + random.between(1, 64),
        _ => right,
    };
    let fill = random.pick(&[0, b' ', b'0', b'\n', 0xFF]);
    let mut buffer = vec![fill; length as usize];
    if random.one_in(4) {
        let [mut one, mut two] = banks;
        let banks = Banks {
            one: &mut one,
            two: &mut two,
        };
        // A declined sheet leaves the buffer as it is.
        let _ = page_sheet(case.geometry, &case.device, &banks, &mut buffer);
    }
    if random.one_in(2) {
        set_bytes(random, &mut buffer);
    }
    buffer
}
