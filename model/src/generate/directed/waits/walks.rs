//! Lists of calls with reads among the steps: what a read that waited leaves for the calls after it.

use crate::cases::Case;
use crate::device::*;
use crate::geometry::{ALL_ONES, LOWER_BOOT, LOWER_PROGRAM, UPPER_BOOT};
use crate::store::{CLEAR, PLAIN, SET};

use super::super::super::walks::Moves;
use super::super::operations::*;
use super::super::parts::*;

pub fn cases() -> Vec<Case> {
    let mut cases = Vec::new();
    for nvmop in 2..8 {
        for steps in 0..3 {
            between_steps(nvmop, steps, &mut cases);
        }
        for kind in 0..3 {
            reset_after_waiting(nvmop, kind, &mut cases);
        }
        declined_reads(nvmop, &mut cases);
    }
    one_after_another(&mut cases);
    aborted(&mut cases);
    protected_page(&mut cases);
    cases
}

/// Reads of the other bank between steps change nothing; one of the target ends the operation, and a step after it is declined.
fn between_steps(nvmop: u32, steps: u32, cases: &mut Vec<Case>) {
    let geometry = geometry(2, 1, 1);
    let target = if nvmop == 6 {
        LOWER_PROGRAM + 256
    } else {
        LOWER_PROGRAM
    };
    let other = if nvmop == 6 { LOWER_BOOT } else { UPPER_BOOT };
    let mut moves = Moves::default();
    begin(&mut moves, nvmop, target + 0x2B);
    for _ in 0..steps {
        if nvmop != 7 {
            moves.flash_read(other);
        }
        moves.step();
    }
    for address in [target + 32, target, other] {
        moves.flash_read(address);
        moves.step();
        moves.register_read(NVMCON as u32);
    }
    moves.start_up();
    cases.push(walk(&geometry, fill(nvmop), &moves));
}

/// A reset after a read that waited finds nothing to tear, and a brown-out sets no error.
fn reset_after_waiting(nvmop: u32, kind: u32, cases: &mut Vec<Case>) {
    let mut moves = Moves::default();
    begin(&mut moves, nvmop, UPPER_BOOT + 0x20);
    moves.step();
    moves.flash_read(LOWER_PROGRAM + 128);
    moves.reset(kind, [0xFFFF, 0, ALL_ONES, 0x00FF_FF00]);
    moves.flash_read(UPPER_BOOT + 0x20);
    moves.register_read(NVMCON as u32);
    cases.push(walk(&SMALL, fill(nvmop), &moves));
}

/// A declined read leaves the operation where it is.
fn declined_reads(nvmop: u32, cases: &mut Vec<Case>) {
    let mut moves = Moves::default();
    begin(&mut moves, nvmop, LOWER_PROGRAM);
    for address in [LOWER_PROGRAM + 1, LOWER_PROGRAM + 256, 0x9D00_0000] {
        moves.flash_read(address);
        moves.step();
    }
    moves.flash_read(LOWER_PROGRAM + 4);
    cases.push(walk(&SMALL, fill(nvmop), &moves));
}

/// Quads and rows, each loaded while the one before runs, which a read then ends.
fn one_after_another(cases: &mut Vec<Case>) {
    for nvmop in [2, 3] {
        let mut moves = Moves::default();
        begin(&mut moves, nvmop, LOWER_PROGRAM);
        for number in 1..4 {
            let address = LOWER_PROGRAM + 16 * number + 3;
            load(&mut moves, PLAIN, address, 0x0002_0000 + 4 * number);
            moves.flash_read(LOWER_PROGRAM + 16 * number - 16);
            launch_now(&mut moves);
        }
        moves.flash_read(LOWER_BOOT);
        moves.flash_read(LOWER_PROGRAM + 48);
        cases.push(walk(&SMALL, ALL_ONES, &moves));
    }
}

/// A read that waits for an abort leaves the error, which the next launch meets.
fn aborted(cases: &mut Vec<Case>) {
    for nvmop in [2, 3] {
        let mut moves = Moves::default();
        begin(&mut moves, nvmop, UPPER_BOOT + 0x70);
        moves.flash_read(UPPER_BOOT + 0x70);
        launch_now(&mut moves);
        moves.flash_read(UPPER_BOOT + 0x70);
        moves.store(NVMCON, CLEAR, WREN);
        moves.store(NVMCON, PLAIN, 0);
        moves.store(NVMCON, SET, WREN);
        launch_now(&mut moves);
        moves.store(NVMCON, CLEAR, WREN);
        moves.store(NVMCON, PLAIN, nvmop);
        moves.store(NVMADDR, PLAIN, UPPER_BOOT);
        moves.store(NVMCON, SET, WREN);
        launch_now(&mut moves);
        moves.flash_read(UPPER_BOOT + 4);
        moves.step();
        cases.push(walk(&SMALL, ALL_ONES, &moves));
    }
}

/// A protected boot page: the read waits for steps that change nothing.
fn protected_page(cases: &mut Vec<Case>) {
    let mut moves = Moves::default();
    for key in crate::store::KEYS {
        moves.store(NVMKEY, PLAIN, key);
    }
    moves.store(NVMBWP, SET, LBWP);
    begin(&mut moves, 4, LOWER_BOOT);
    moves.step();
    moves.flash_read(LOWER_BOOT + 0x70);
    moves.step();
    cases.push(walk(&SMALL, 0x1234_0000, &moves));
}
