//! Resets between a cut and the completed start-up: of each kind, one after another, and declined ones.

use crate::cases::Case;
use crate::tries::Move;
use crate::update::total;

use super::super::parts::SMALL;
use super::{cut, reset, signs, MASKS};

pub fn cases() -> Vec<Case> {
    let mut cases = Vec::new();
    for sign in signs() {
        // In a step of the erasing, before the step of the sequence quad, and at the total.
        for place in [26, total(&SMALL) - 2, total(&SMALL)] {
            for kind in 0..3 {
                for second in 0..3 {
                    let rest = [reset(second), reset(kind), Move::StartUp];
                    let first = cut(place, kind, MASKS[2 * second as usize]);
                    cases.push(sign.tries(&[&first[..], &rest].concat()));
                }
            }
            for kind in [3, 4, 255, 0x8000_0000, 0xFFFF_FFFF] {
                cases.push(sign.tries(&declined(place, kind)));
            }
        }
    }
    cases
}

/// Declined resets before the cut, after it, and between cut start-ups.
fn declined(place: u32, kind: u32) -> Vec<Move> {
    let mut moves = cut(place, kind, MASKS[1]);
    moves.push(reset(1));
    for stores in [3, 4] {
        moves.push(reset(kind));
        moves.push(Move::CutStartUp { stores });
    }
    moves.extend([reset(kind), Move::StartUp, reset(kind)]);
    moves
}
