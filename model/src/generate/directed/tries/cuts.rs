//! Where a try is cut: in the erasing, around the last step, at the total, after a read that waits and inside one; several tries.

use crate::cases::Case;
use crate::geometry::{Kind, Side, ALL_ONES};
use crate::tries::Move;
use crate::update::total;

use super::super::parts::SMALL;
use super::super::updates::Sign;
use super::{cut, reset, signs, turns, whole, MASKS};

/// The place of the first erasing step, of the last boot page's sequence quad, of the first page's end and of the next page's first step.
const ERASING: [u32; 4] = [19, 26, 27, 35];

pub fn cases() -> Vec<Case> {
    let mut cases = Vec::new();
    for sign in signs() {
        torn(&sign, &mut cases);
        waits(&sign, &mut cases);
        inside_reads(&sign, &mut cases);
        three_tries(&sign, &mut cases);
        for other in [ALL_ONES, 0x8000_8000, 0xFFFF_0001] {
            let own = sign.banks[sign.old()][SMALL.sequence_index()];
            three_tries(&sign.with_sequences(own, other), &mut cases);
        }
    }
    cases
}

/// In the erasing, and around the step of the sequence quad, with each mask; where the old bank runs then the second try is whole.
fn torn(sign: &Sign, cases: &mut Vec<Case>) {
    let total = total(&SMALL);
    let last = [total - 3, total - 2, total - 1, total];
    for place in ERASING.into_iter().chain(last) {
        for (number, mask) in MASKS.into_iter().enumerate() {
            let first = cut(place, number as u32 % 3, mask);
            let moves = [&first, &[Move::StartUp][..], &whole(0)].concat();
            cases.push(sign.tries(&moves));
        }
    }
}

/// The first word of the new bank's boot pages and of its program pages, and of the old bank's.
fn addresses() -> [u32; 3] {
    [
        SMALL.window_start(Kind::Boot, Side::Upper),
        SMALL.window_start(Kind::Program, Side::Upper),
        SMALL.window_start(Kind::Boot, Side::Lower),
    ]
}

/// A read just before the cut, and turns after it, which are declined where it waited.
fn waits(sign: &Sign, cases: &mut Vec<Case>) {
    for place in [18, 19, 26, 55, 56, total(&SMALL) - 2, total(&SMALL)] {
        for address in addresses() {
            let mut moves = turns(place);
            moves.push(Move::FlashRead { address });
            moves.extend([Move::Turn { sram: 0 }, Move::Turn { sram: 16_384 }]);
            moves.extend([reset(1), Move::StartUp]);
            cases.push(sign.tries(&[moves, whole(2)].concat()));
        }
    }
}

/// The supply fails after some steps of a read, also after all of them; a step more is declined.
fn inside_reads(sign: &Sign, cases: &mut Vec<Case>) {
    for (place, steps) in [(19, 1), (19, 7), (19, 8), (19, 9), (22, 4), (250, 1)] {
        for (number, mask) in MASKS.into_iter().enumerate() {
            let mut moves = turns(place);
            moves.extend((0..steps).map(|_| Move::Step));
            let kind = (number as u32 + 1) % 3;
            moves.extend([Move::Reset { kind, mask }, Move::StartUp]);
            cases.push(sign.tries(&[moves, whole(1)].concat()));
        }
    }
}

/// Three tries in a row, of which the last is cut late, with a mask that leaves the old word, the new one or a mixture.
fn three_tries(sign: &Sign, cases: &mut Vec<Case>) {
    let total = total(&SMALL);
    for (number, mask) in MASKS.into_iter().enumerate() {
        let kind = number as u32 % 3;
        let mut moves = cut(26, kind, mask);
        moves.push(Move::StartUp);
        moves.extend(cut(130 + kind, (kind + 1) % 3, mask));
        moves.extend([Move::CutStartUp { stores: 2 }, reset(kind), Move::StartUp]);
        moves.extend(cut(total - 2, (kind + 2) % 3, mask));
        moves.extend([Move::CutStartUp { stores: 4 }, Move::StartUp]);
        cases.push(sign.tries(&moves));
    }
}
