//! Tries of an update: turns and flash reads up to a cut, resets and cut start-ups in any order, a completed start-up.

use crate::cases::Case;
use crate::geometry::{Geometry, Kind, Side};
use crate::random::Random;
use crate::tries::Move;
use crate::update::total;

use super::calls::{put_banks, put_image, spoil_start};
use super::devices::{address, inside_address};
use super::places::{accepted_start, place, step_place, MOST_TURNS};

/// The most tries of a case.
const TRIES: u32 = 3;

/// How seldom a start is declined, and a move stands where a try has none: once in this many cases.
const SPOILED: u32 = 8;

pub fn run_case(random: &mut Random, geometry: &Geometry, case: &mut Case) {
    let mut start = accepted_start(random, geometry);
    if random.one_in(SPOILED) {
        spoil_start(random, geometry, &mut start);
    }
    case.device = start.device;
    put_banks(random, case, start.banks);
    put_image(random, case, start.image);
    let mut moves = Vec::new();
    for _ in 0..random.between(1, TRIES) {
        moves.extend(random_try(random, geometry));
    }
    if random.one_in(SPOILED) {
        let index = random.below(moves.len() as u32) as usize;
        moves.insert(index, any_move(random, geometry));
    }
    case.numbers = Move::list(&moves);
}

/// One try, from its start to a completed start-up. Where a read waited, the turns after it are declined.
pub fn random_try(random: &mut Random, geometry: &Geometry) -> Vec<Move> {
    let mut moves = vec![Move::UpdateStart];
    turns_and_reads(random, geometry, &mut moves);
    moves.push(reset(random));
    for _ in 0..random.below(6) {
        moves.push(after_cut(random));
    }
    moves.push(Move::StartUp);
    moves
}

/// Turns up to a step or to an edge of the list's blocks, reads among them, and at times the steps of a read that is cut.
fn turns_and_reads(random: &mut Random, geometry: &Geometry, moves: &mut Vec<Move>) {
    let last = match random.below(2) {
        0 => step_place(random, geometry),
        _ => place(random, geometry),
    };
    let last = last.min(total(geometry)).min(MOST_TURNS);
    let first = random.below(last + 1);
    for count in [first, last - first] {
        let sram = random.pick(&[0, 0, 4, 16_384]);
        if count > 0 {
            moves.push(Move::Turns { sram, count });
        }
        if random.one_in(2) {
            moves.push(read(random, geometry));
        }
        if random.one_in(6) {
            moves.push(any_turn(random));
        }
    }
    if random.one_in(3) {
        let steps = random.between(1, geometry.page_quads().min(9));
        moves.extend((0..steps).map(|_| Move::Step));
    }
}

/// Most reads are of the old bank, so that they do not wait.
fn read(random: &mut Random, geometry: &Geometry) -> Move {
    let kind = random.pick(&[Kind::Boot, Kind::Program]);
    let words = geometry.window_bytes(kind) / 4;
    let start = geometry.window_start(kind, Side::Lower);
    let address = match random.below(8) {
        0 => address(random, geometry),
        1 | 2 => inside_address(random, geometry) & !3,
        _ => start + 4 * random.below(words),
    };
    Move::FlashRead { address }
}

/// A turn more, seldom with too long an SRAM.
fn any_turn(random: &mut Random) -> Move {
    let sram = random.pick(&[0, 1, 16_384, 16_385]);
    Move::Turn { sram }
}

fn reset(random: &mut Random) -> Move {
    let (kind, mask) = (random.below(3), random.mask());
    Move::Reset { kind, mask }
}

/// What may stand between a cut and the completed start-up; seldom another completed one.
fn after_cut(random: &mut Random) -> Move {
    match random.below(8) {
        0..=2 => reset(random),
        3 => {
            let kind = random.pick(&[3, 4, 255, 0xFFFF_FFFF]);
            let mask = random.mask();
            Move::Reset { kind, mask }
        }
        4 => Move::StartUp,
        _ => {
            let stores = random.below(7);
            Move::CutStartUp { stores }
        }
    }
}

fn any_move(random: &mut Random, geometry: &Geometry) -> Move {
    match random.below(6) {
        0 => any_turn(random),
        1 => read(random, geometry),
        2 => Move::Step,
        3 => Move::UpdateStart,
        4 => Move::Turns { sram: 0, count: 0 },
        _ => after_cut(random),
    }
}
