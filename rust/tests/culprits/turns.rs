//! Declines 5, 6 and 13 of turns.

use model::geometry::Geometry as OutsideGeometry;
use model::update::{action, Action};
use yohrundel::register::NAMES;
use yohrundel::Geometry;

use crate::sign::Sign;
use crate::{text, Told};

#[test]
fn places_around_the_total() {
    let sign = Sign::new();
    assert_eq!(sign.turn(253), text("the place is 253, the total 252"));
    assert_eq!(sign.turn(252), None);
}

/// Part 1 has 12 actions; an erase has 7 stores, 8 steps and a store.
#[test]
fn actions_that_are_declined() {
    let (idle, running) = (Sign::new(), Sign::running());
    let store = "the action at place 0, a store to NVMCON, with WR = 1: NVMCON is 0x0000A004";
    assert_eq!([idle.turn(0), running.turn(0)], [None, text(store)]);
    let lock = "the action at place 11, a store to NVMBWP, with WR = 1: NVMCON is 0x0000A004";
    assert_eq!([idle.turn(11), running.turn(11)], [None, text(lock)]);
    assert_eq!([idle.turn(12), running.turn(12)], [None, None]);
    let step = "the action at place 19, a step, with WR = 0: NVMCON is 0x00000000";
    assert_eq!([idle.turn(19), running.turn(19)], [text(step), None]);
}

/// What is told by the model's action.
fn expected(action: Action, running: bool, place: u32) -> Told {
    match action {
        Action::Store { register, .. } if running && !(2..8).contains(&register) => {
            let name = NAMES[register as usize];
            text(&format!(
                "the action at place {place}, a store to {name}, with WR = 1: NVMCON is 0x0000A004"
            ))
        }
        Action::Step if !running => text(&format!(
            "the action at place {place}, a step, with WR = 0: NVMCON is 0x00000000"
        )),
        _ => None,
    }
}

/// Each place of small updates.
#[test]
fn every_action() {
    for [q, b, p] in [[1, 1, 1], [2, 1, 2], [1, 3, 2]] {
        let words = (32 * q * (b + p)) as usize;
        let of_sizes = |sign: Sign| Sign {
            geometry: Geometry { q, b, p },
            one: vec![0; words],
            two: vec![0; words],
            image: vec![0; words],
            ..sign
        };
        let (idle, running) = (of_sizes(Sign::new()), of_sizes(Sign::running()));
        let outside = OutsideGeometry::new([q, b, p]).expect("a sign");
        for place in 0..model::update::total(&outside) {
            let action = action(&outside, 0, &idle.image, place);
            assert_eq!(idle.turn(place), expected(action, false, place));
            assert_eq!(running.turn(place), expected(action, true, place));
        }
    }
}
