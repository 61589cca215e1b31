//! Tries of an update that the supply cuts, one after another, with resets and cut start-ups between them.

mod calls;
mod cuts;
mod resets;
mod start_ups;

use crate::cases::Case;
use crate::geometry::ALL_ONES;
use crate::tries::Move;
use crate::update::total;

use super::parts::SMALL;
use super::updates::Sign;

/// The whole old quad, the whole new one, the new word alone, its low half, and other mixtures.
const MASKS: [[u32; 4]; 6] = [
    [0; 4],
    [ALL_ONES; 4],
    [ALL_ONES, 0, 0, 0],
    [0x0000_FFFF, ALL_ONES, ALL_ONES, ALL_ONES],
    [0x5555_5555; 4],
    [0xFFFF_0000, 0, 0x1234_5678, 0],
];

pub fn cases() -> Vec<Case> {
    [
        start_ups::cases(),
        resets::cases(),
        cuts::cases(),
        calls::cases(),
    ]
    .concat()
}

/// The smallest sign with the old bank 1, and with the old bank 2.
fn signs() -> [Sign; 2] {
    [false, true].map(|swapped| Sign::sparse(SMALL, swapped))
}

/// A try up to a place.
fn turns(place: u32) -> Vec<Move> {
    let (sram, count) = (0, place);
    vec![Move::UpdateStart, Move::Turns { sram, count }]
}

/// A try up to a place, and its cut.
fn cut(place: u32, kind: u32, mask: [u32; 4]) -> Vec<Move> {
    [turns(place), vec![Move::Reset { kind, mask }]].concat()
}

/// A try that is not cut before the total: it says done, and after a reset and a start-up the new bank runs.
fn whole(kind: u32) -> Vec<Move> {
    let last = [Move::Turn { sram: 0 }, reset(kind), Move::StartUp];
    [&turns(total(&SMALL))[..], &last].concat()
}

fn reset(kind: u32) -> Move {
    let mask = MASKS[kind as usize % MASKS.len()];
    Move::Reset { kind, mask }
}
