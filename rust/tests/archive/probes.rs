//! A probe that reads registers beside an update: unseen at key step 0 or 1; at 2 or 3 it loses a store.

use model::device::{Device as OutsideDevice, NVMBWP, NVMKEY};
use model::flash::reset;
use model::generate::{accepted_start, random_image, Start};
use model::geometry::{Banks, Geometry};
use model::random::Random;
use model::sequence::word_of;
use model::store::{start_up, store, KEYS, PLAIN};
use yohrundel::register::NVMCON;
use yohrundel::Decline;

use crate::sign::Sign;

/// Reads before every turn at key step 0 or 1; the whole update then is the model's without them.
#[test]
fn reads_at_key_step_0_and_1_go_unseen() {
    for (seed, numbers) in [[1, 1, 1], [1, 2, 1], [2, 1, 1]].into_iter().enumerate() {
        let geometry = Geometry::new(numbers).expect("a sign");
        let start = accepted_start(&mut Random::new(seed as u64), &geometry);
        let mut sign = Sign::new(numbers, start);
        let total = sign.start();
        let (mut place, mut reads) = (0, 0);
        while place < total {
            if sign.device.keystep <= 1 {
                let before = sign.device;
                sign.read(place % 11);
                assert_eq!(sign.device, before);
                reads += 1;
            }
            place = sign.turn(&[], place).expect("a place below the total");
        }
        // Of a quad's 13 turns two are met at key step 2 or 3.
        assert!(reads > total / 13 * 10, "{reads} reads");
        let runs = sign.restart(&[], 0, [0; 4]);
        assert!(sign.runs_new(runs));
    }
}

/// Of the upper alias the last boot page is free, the first is not.
fn half_protected() -> Sign {
    protected(0x9FC1)
}

/// A sign of Q = 1, B = 2, P = 1 with T = 5 in bank 1 and T = 4 in bank 2, and NVMBWP plain after start-up.
fn protected(nvmbwp: u32) -> Sign {
    let numbers = [1, 2, 1];
    let geometry = Geometry::new(numbers).expect("a sign");
    let mut banks = [random_image(&geometry, 1), random_image(&geometry, 2)];
    banks[0][geometry.sequence_index()] = word_of(5);
    banks[1][geometry.sequence_index()] = word_of(4);
    let [one, two] = &mut banks;
    let mut lent = Banks { one, two };
    let device = OutsideDevice::reset_values();
    let restart = reset(numbers, device, &mut lent, &[], 0, [0; 4]).expect("a reset");
    let mut device = start_up(numbers, restart.device).expect("a start-up");
    let stores = KEYS.into_iter().map(|key| (NVMKEY, key));
    for (register, value) in stores.chain([(NVMBWP, nvmbwp)]) {
        let stored = store(numbers, device, register as u32, PLAIN, value);
        device = stored.expect("a store").0;
    }
    assert_eq!(device.registers[NVMBWP], nvmbwp);
    let image = random_image(&geometry, 3);
    let start = Start {
        device,
        banks,
        image,
    };
    Sign::new(numbers, start)
}

/// Turns from place 0 with one read of NVMCON just before a place, at its key step: the place and the answer of a turn that is declined, or
/// the total.
fn updated(sign: &mut Sign, read_before: u32, key_step: u32) -> Result<u32, (u32, Decline)> {
    let (total, mut place) = (sign.start(), 0);
    while place < total {
        if place == read_before {
            assert_eq!(sign.device.keystep, key_step);
            sign.read(NVMCON);
        }
        place = sign
            .try_turn(&[], place)
            .map_err(|decline| (place, decline))?;
    }
    Ok(total)
}

/// POWER-FAIL.md's warning: one read just before place 10 or 11. Every turn answers 0 and the total is reached, and the sign runs the new
/// sequence and program pages over an old boot page.
#[test]
fn a_read_before_place_10_or_11_leaves_an_old_boot_page() {
    let boot_page = 0..32;
    for (read_before, key_step) in [(10, 2), (11, 3)] {
        let mut sign = half_protected();
        let old_page = sign.banks[1][boot_page.clone()].to_vec();
        updated(&mut sign, read_before, key_step).expect("the total");
        assert_eq!(sign.restart(&[], 0, [0; 4]), 1, "bank 2 runs");
        let mut mixed = sign.new_words.clone();
        assert!(mixed[boot_page.clone()] != old_page);
        mixed[boot_page.clone()].copy_from_slice(&old_page);
        assert!(sign.banks[1] == mixed, "a read before {read_before}");
    }
}

/// Where the last boot page was protected the old bank goes on running.
#[test]
fn a_read_before_place_10_or_11_leaves_the_old_bank() {
    for (read_before, key_step) in [(10, 2), (11, 3)] {
        let mut sign = protected(0x9FC2);
        updated(&mut sign, read_before, key_step).expect("the total");
        assert_eq!(sign.restart(&[], 0, [0; 4]), 0, "bank 1 runs");
    }
}

/// A read just before the third key store or the launch of a page or a quad: the turn of the first step is declined 6, and so is it again;
/// after a reset and a start-up the same update is accepted, and ends in the new bank.
#[test]
fn a_read_before_a_launch_loses_it() {
    let (page, quad) = (12, 12 + 3 * 16);
    for (launch, read_before, key_step) in [
        (page + 6, page + 5, 2),
        (page + 6, page + 6, 3),
        (quad + 10, quad + 9, 2),
        (quad + 10, quad + 10, 3),
    ] {
        let mut sign = half_protected();
        let stopped = updated(&mut sign, read_before, key_step);
        assert_eq!(stopped, Err((launch + 1, Decline::Idle)));
        assert_eq!(sign.try_turn(&[], launch + 1), Err(Decline::Idle));
        let runs = sign.restart(&[], 0, [0; 4]);
        assert!(!sign.runs_new(runs));
        ends_in_the_new_bank(&mut sign);
    }
}

/// A read just before place 5 or 6 does harm only where an error was set, as a brown-out within an operation sets LVDERR: then nothing is
/// launched.
#[test]
fn a_read_before_place_5_or_6_keeps_errors() {
    for (read_before, key_step) in [(5, 2), (6, 3)] {
        let mut sign = half_protected();
        updated(&mut sign, read_before, key_step).expect("the total");
        let runs = sign.restart(&[], 0, [0; 4]);
        assert!(sign.runs_new(runs));

        let mut sign = half_protected();
        while !sign.device.operation_runs() {
            let place = sign.turns as u32;
            sign.try_turn(&[], place).expect("a turn");
        }
        sign.restart(&[], 1, [0; 4]);
        let stopped = updated(&mut sign, read_before, key_step);
        assert_eq!(stopped, Err((19, Decline::Idle)));
    }
}

/// The same sign without the read.
#[test]
fn without_the_read_the_new_bank_is_whole() {
    ends_in_the_new_bank(&mut half_protected());
}

fn ends_in_the_new_bank(sign: &mut Sign) {
    let (total, mut place) = (sign.start(), 0);
    while place < total {
        place = sign.try_turn(&[], place).expect("a turn");
    }
    let runs = sign.restart(&[], 0, [0; 4]);
    assert!(sign.runs_new(runs));
}
