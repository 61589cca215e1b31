//! `yohrundel cut --read`: a read of the CPU just before the supply fails, every byte of it beside the outside model.

use model::geometry::{Kind, Side};
use model::random::Random;

use crate::outside::Sign;
use crate::run::run;
use crate::updates::{cut, geometry_text, mask_text, KINDS, MASKS};

/// The first address of each window: boot pages and program pages, lower and upper.
pub fn windows(sign: &Sign) -> [u32; 4] {
    [
        (Kind::Boot, Side::Lower),
        (Kind::Boot, Side::Upper),
        (Kind::Program, Side::Lower),
        (Kind::Program, Side::Upper),
    ]
    .map(|(kind, side)| sign.geometry.window_start(kind, side))
}

/// What is said of a read, and whether it waited.
pub fn reading(sign: &mut Sign, place: u32, address: u32) -> (String, bool) {
    let (word, steps) = sign.read(address);
    let waits = match steps {
        None => String::from("does not wait"),
        Some(1) => String::from("waits for 1 step, the operation's last,"),
        Some(steps) => format!("waits for {steps} steps, to the operation's end,"),
    };
    let front = format!(
        "At place {place} the CPU reads 0x{address:08X}.\n\
         The read {waits} and gives 0x{word:08X}.\nThen"
    );
    (front, steps.is_some())
}

/// A cut of a sign that has come to a place, with a read; true where it waited.
fn check(numbers: [u32; 3], sign: &Sign, place: u32, address: u32) -> bool {
    let mut sign = sign.clone();
    let (kind, mask) = (place % 3, MASKS[place as usize / 3 % 6]);
    let (front, waited) = reading(&mut sign, place, address);
    let (expected, _) = cut(sign, &front, kind, mask);
    let (geometry, kind) = (geometry_text(numbers), KINDS[kind as usize]);
    let mask = mask_text(mask);
    let arguments = format!("cut {geometry} {place} {kind} {mask} --read {address:x}");
    let arguments: Vec<&str> = arguments.split(' ').collect();
    assert_eq!(run(&arguments).printed(), expected, "{arguments:?}");
    waited
}

/// Every place of the smallest sign: one window where no operation runs, all of them where one does.
#[test]
fn reads_at_every_place() {
    let numbers = [1, 1, 1];
    let mut sign = Sign::fresh(numbers, None);
    let mut waits = 0;
    for place in 0..=252 {
        sign.turns(place.max(1) - 1, place);
        let windows = windows(&sign);
        let count = if sign.device.running() { 4 } else { 1 };
        for number in 0..count {
            let window = windows[(place + number) as usize % 4];
            let address = window + 4 * (place % 32);
            waits += u32::from(check(numbers, &sign, place, address));
        }
    }
    // Two pages of 8 steps and 16 quads, and two windows of the new bank.
    assert_eq!(waits, 2 * (2 * 8 + 16));
}

#[test]
fn reads_in_updates_of_larger_signs() {
    let mut random = Random::new(3);
    for numbers in [[2, 2, 3], [8, 1, 2], [1, 5, 20]] {
        let mut sign = Sign::fresh(numbers, None);
        let total = sign.start().expect("it is accepted");
        let (mut at, mut waits) = (0, 0);
        while at < total {
            let place = total.min(at + random.between(1, total / 20));
            sign.turns(at, place);
            at = place;
            for window in windows(&sign) {
                waits += u32::from(check(numbers, &sign, place, window + 4 * random.below(16)));
            }
        }
        assert!(waits > 2, "{waits} waits");
    }
}

/// After a read that waited all is as at the place after the operation's last step.
#[test]
fn a_read_that_waits_is_the_rest_of_the_operation() {
    let from_the_picture = |arguments: &str| {
        let arguments: Vec<&str> = arguments.split(' ').collect();
        let printed = run(&arguments).printed();
        let (_, rest) = printed
            .split_once("no operation runs.\n")
            .expect("no operation");
        rest.to_string()
    };
    for (place, later) in [(19, 27), (23, 27), (55, 56), (250, 251)] {
        for kind in KINDS {
            let read = from_the_picture(&format!("cut 1 1 1 {place} {kind} F0 --read 1FC20010"));
            let later = from_the_picture(&format!("cut 1 1 1 {later} {kind} F0"));
            assert_eq!(read, later);
        }
    }
}

/// The option may stand anywhere, the address in small letters and after 0x.
#[test]
fn where_the_option_stands() {
    let expected = run(&["cut", "1", "1", "1", "19", "1", "FF", "--read", "1D00008C"]).printed();
    for arguments in [
        "cut --read 1d00008c 1 1 1 19 1 FF",
        "cut 1 1 --read 0x1D00008C 1 19 1 FF",
        "cut 1 1 1 19 1 --read 0x1d00008c FF",
    ] {
        let arguments: Vec<&str> = arguments.split(' ').collect();
        assert_eq!(run(&arguments).printed(), expected, "{arguments:?}");
    }
}
