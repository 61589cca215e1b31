//! Lists of calls: the next operation loaded while one runs, and launched by its keys alone.

use crate::cases::Case;
use crate::device::*;
use crate::geometry::{ALL_ONES, LOWER_PROGRAM, UPPER_BOOT};
use crate::store::{CLEAR, INVERT, PLAIN, SET};

use super::super::super::walks::Moves;
use super::super::operations::*;
use super::super::parts::*;

pub fn cases() -> Vec<Case> {
    let mut cases = Vec::new();
    for nvmop in 2..8 {
        for form in PLAIN..=INVERT {
            between_steps(nvmop, form, &mut cases);
        }
        for kind in 0..3 {
            cut_after_a_load(nvmop, kind, &mut cases);
        }
    }
    one_quad_after_another(&mut cases);
    every_register(&mut cases);
    aborted(&mut cases);
    lost_launches(&mut cases);
    cases
}

/// A load by each form before each of the first steps, then reads of both banks, and what the registers hold at the end.
fn between_steps(nvmop: u32, form: u32, cases: &mut Vec<Case>) {
    let geometry = geometry(2, 1, 1);
    let mut moves = Moves::default();
    begin(&mut moves, nvmop, LOWER_PROGRAM + 0x2B);
    for number in 0..3 {
        load(&mut moves, form, UPPER_BOOT + 16 * number, 0xF0F0 + number);
        moves.step();
    }
    moves.flash_read(LOWER_PROGRAM);
    moves.flash_read(UPPER_BOOT);
    for register in NVMADDR..=NVMSRCADDR {
        moves.register_read(register as u32);
    }
    cases.push(walk(&geometry, fill(nvmop), &moves));
}

/// A reset after a load tears by what was launched; a launch after it, its error cleared, works by what was loaded.
fn cut_after_a_load(nvmop: u32, kind: u32, cases: &mut Vec<Case>) {
    let mut moves = Moves::default();
    begin(&mut moves, nvmop, LOWER_PROGRAM);
    load(&mut moves, PLAIN, LOWER_PROGRAM + 0x80, 0x0BAD_0000);
    moves.reset(kind, [0xFFFF, 0, ALL_ONES, 0x00FF_FF00]);
    moves.flash_read(LOWER_PROGRAM);
    moves.store(NVMCON, PLAIN, 0);
    moves.store(NVMCON, SET, WREN);
    launch_now(&mut moves);
    moves.store(NVMCON, CLEAR, WREN);
    moves.store(NVMCON, PLAIN, nvmop);
    moves.store(NVMCON, SET, WREN);
    launch_now(&mut moves);
    moves.step();
    cases.push(walk(&SMALL, fill(nvmop), &moves));
}

/// Quads and rows, each loaded while the one before runs: nothing but keys and launch between them.
fn one_quad_after_another(cases: &mut Vec<Case>) {
    for nvmop in [2, 3] {
        let mut moves = Moves::default();
        begin(&mut moves, nvmop, LOWER_PROGRAM);
        for number in 1..4 {
            let address = LOWER_PROGRAM + 16 * number + 3;
            load(&mut moves, PLAIN, address, 0x0002_0000 + 4 * number);
            moves.step();
            launch_now(&mut moves);
        }
        moves.step();
        moves.step();
        cases.push(walk(&SMALL, ALL_ONES, &moves));
    }
}

/// Stores to all registers between the steps of a page erase, a start-up and a register read too.
fn every_register(cases: &mut Vec<Case>) {
    for form in PLAIN..=INVERT {
        let mut moves = Moves::default();
        begin(&mut moves, 4, UPPER_BOOT + 0x7F);
        for register in 0..REGISTERS + 1 {
            moves.store(register, form, 0x8000_40C7);
            moves.register_read(register as u32);
            if register % 2 == 0 {
                moves.step();
            }
        }
        moves.start_up();
        moves.step();
        moves.step();
        moves.step();
        moves.start_up();
        cases.push(walk(&SMALL, 0, &moves));
    }
}

/// An abort ends what was launched; the next launch, its error cleared, is of the loaded quad.
fn aborted(cases: &mut Vec<Case>) {
    for nvmop in [2, 3] {
        let mut moves = Moves::default();
        begin(&mut moves, nvmop, UPPER_BOOT + 0x70);
        load(&mut moves, PLAIN, UPPER_BOOT, 0x0003_0000);
        moves.step();
        moves.step();
        moves.store(NVMCON, CLEAR, WREN);
        moves.store(NVMCON, PLAIN, 0);
        moves.store(NVMCON, SET, WREN);
        launch_now(&mut moves);
        moves.store(NVMCON, CLEAR, WREN);
        moves.store(NVMCON, PLAIN, nvmop);
        moves.store(NVMCON, SET, WREN);
        launch_now(&mut moves);
        moves.step();
        cases.push(walk(&SMALL, ALL_ONES, &moves));
    }
}

/// A target outside the windows loaded early: the running operation ends, the next launch fails and none is recorded.
fn lost_launches(cases: &mut Vec<Case>) {
    for (nvmop, steps) in [(2, 1), (3, 1), (4, 8)] {
        let mut moves = Moves::default();
        begin(&mut moves, nvmop, LOWER_PROGRAM);
        moves.store(NVMADDR, PLAIN, LOWER_PROGRAM + 0x100);
        for _ in 0..steps {
            moves.step();
        }
        launch_now(&mut moves);
        moves.step();
        moves.flash_read(LOWER_PROGRAM);
        cases.push(walk(&SMALL, fill(nvmop), &moves));
    }
}
