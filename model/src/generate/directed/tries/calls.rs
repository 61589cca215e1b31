//! Single calls among tries: turns with SRAM of each length and of each number, declined starts and start-ups, signs that are declined.

use crate::cases::Case;
use crate::device::*;
use crate::sequence::word_of;
use crate::tries::Move;
use crate::update::total;

use super::super::parts::*;
use super::super::updates::{Sign, OLD};
use super::{cut, reset, signs, turns, whole};

pub fn cases() -> Vec<Case> {
    let mut cases = Vec::new();
    for sign in signs() {
        cases.push(sign.tries(&[]));
        turn_counts(&sign, &mut cases);
        while_running(&sign, &mut cases);
        declined_starts(&sign, &mut cases);
        declined_signs(&sign, &mut cases);
        // The update of the bank that the first one wrote.
        cases.push(sign.tries(&[whole(0), whole(1), cut(100, 2, [7; 4])].concat()));
    }
    for numbers in [geometry(1, 2, 1), geometry(2, 1, 1), geometry(1, 1, 2)] {
        for swapped in [false, true] {
            larger(&Sign::sparse(numbers, swapped), &mut cases);
        }
    }
    cases
}

/// No turn, one, all, and more than all; SRAM of the greatest length and a word more.
fn turn_counts(sign: &Sign, cases: &mut Vec<Case>) {
    let total = total(&SMALL);
    for count in [0, 1, total - 1, total, total + 1, 0xFFFF_FFFF] {
        for sram in [0, 16_384, 16_385] {
            let mut moves = vec![Move::UpdateStart, Move::Turns { sram, count }];
            moves.extend([Move::Turn { sram }, reset(2), Move::StartUp]);
            cases.push(sign.tries(&moves));
        }
    }
}

/// While an operation runs a start and a start-up are declined, whole or cut, and the try goes on.
fn while_running(sign: &Sign, cases: &mut Vec<Case>) {
    for stores in 0..3 {
        let mut moves = turns(19);
        moves.extend([Move::CutStartUp { stores }, Move::StartUp]);
        moves.extend([Move::UpdateStart, Move::Turns { sram: 0, count: 8 }]);
        moves.extend([reset(stores), Move::StartUp, Move::UpdateStart]);
        cases.push(sign.tries(&moves));
    }
}

/// After a cut start-up without a completed one a start is accepted or declined by the mapping; a place is kept where it is declined.
fn declined_starts(sign: &Sign, cases: &mut Vec<Case>) {
    for place in [30, total(&SMALL)] {
        for stores in 0..6 {
            let mut moves = cut(place, 0, [0; 4]);
            moves.extend([Move::CutStartUp { stores }, Move::UpdateStart]);
            moves.extend([Move::Turn { sram: 0 }, Move::StartUp, Move::UpdateStart]);
            cases.push(sign.tries(&moves));
        }
    }
}

/// Starts that are declined by 1, 2, 3, 10, 11 and 12, and what the calls after them give.
fn declined_signs(sign: &Sign, cases: &mut Vec<Case>) {
    let all = [
        vec![Move::UpdateStart, Move::Turn { sram: 0 }, Move::Step],
        vec![
            Move::FlashRead {
                address: 0x1D00_0000,
            },
            reset(0),
        ],
        vec![Move::CutStartUp { stores: 1 }, Move::StartUp],
    ]
    .concat();
    let mut refused = sign.tries(&all);
    refused.geometry = [3, 1, 1];
    cases.push(refused);
    for list in 0..3 {
        let mut short = sign.tries(&all);
        short.lists[list].length += 1;
        cases.push(short);
    }
    for device in [
        with_key(sign.device, 4),
        with_con(sign.device, WR),
        with_register(sign.device, NVMBWP, UNPROTECTED & !UBWPULOCK),
        with_pwp(sign.device, SMALL.region_bytes()),
    ] {
        cases.push(sign.with_device(device).tries(&all));
    }
    for (own, other) in [(0, word_of(OLD)), (word_of(65_535), 0), (word_of(OLD), 0)] {
        cases.push(sign.with_sequences(own, other).tries(&all));
    }
}

/// Two cuts and a whole try of a sign with more pages or longer rows.
fn larger(sign: &Sign, cases: &mut Vec<Case>) {
    let total = total(&sign.geometry);
    for place in [total / 8, total / 2, total - 2] {
        let mut moves = cut(place, 1, [0x00FF_00FF; 4]);
        moves.extend([Move::CutStartUp { stores: 3 }, reset(2), Move::StartUp]);
        moves.extend(cut(total - 2, 2, [0; 4]));
        moves.push(Move::StartUp);
        moves.extend(turns(total));
        moves.extend([reset(0), Move::StartUp]);
        cases.push(sign.tries(&moves));
    }
}
