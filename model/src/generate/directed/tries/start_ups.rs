//! Start-ups that are cut after each number of their stores, under BFSWAP 0 and 1.

use crate::cases::Case;
use crate::tries::Move;
use crate::update::total;

use super::super::parts::SMALL;
use super::{cut, reset, signs, whole, MASKS};

/// More stores than a start-up has, too.
const MOST_STORES: u32 = 6;

/// The store of PFSWAP is the fourth.
const AFTER_PFSWAP: Move = Move::CutStartUp { stores: 4 };

pub fn cases() -> Vec<Case> {
    let mut cases = Vec::new();
    for sign in signs() {
        // In the erasing, so that the old bank runs, and at the total, so that the new one does.
        for place in [20, total(&SMALL)] {
            for stores in 0..=MOST_STORES {
                let kind = stores % 3;
                let first = cut(place, kind, MASKS[stores as usize % MASKS.len()]);
                for rest in ends(kind, Move::CutStartUp { stores }) {
                    cases.push(sign.tries(&[first.clone(), rest].concat()));
                }
            }
        }
        for stores in 0..=MOST_STORES {
            let between = [Move::CutStartUp { stores }, reset(1), Move::StartUp];
            let moves = [&cut(20, 0, MASKS[1]), &between[..], &whole(2)].concat();
            cases.push(sign.tries(&moves));
        }
    }
    cases
}

/// What follows the reset up to a completed start-up, with a cut start-up in it.
fn ends(kind: u32, cut_start_up: Move) -> Vec<Vec<Move>> {
    let (again, done) = (reset((kind + 1) % 3), Move::StartUp);
    vec![
        vec![cut_start_up],
        vec![cut_start_up, done],
        vec![cut_start_up, again, done],
        vec![cut_start_up, cut_start_up, done],
        vec![cut_start_up, again, cut_start_up, reset(kind), done],
        vec![done, cut_start_up, done],
        vec![done, again, cut_start_up, again, done],
        vec![AFTER_PFSWAP, cut_start_up, done],
        vec![AFTER_PFSWAP, again, cut_start_up, again, done],
        vec![cut_start_up, AFTER_PFSWAP, again, done],
    ]
}
