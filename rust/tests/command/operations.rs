//! `yohrundel cut`: which operation runs when the supply fails, by the model and reckoned by hand from the paper's list of actions.

use model::geometry::Kind;
use model::operation::next_quad;

use crate::outside::Sign;
use crate::run::run;

/// Which operation runs, as the rest of a sentence.
pub fn operation(sign: &Sign) -> String {
    let (geometry, device) = (&sign.geometry, &sign.device);
    if !device.running() {
        return String::from("no operation runs");
    }
    let location = next_quad(geometry, device).expect("a quad");
    let kind = match location.kind {
        Kind::Boot => "boot",
        Kind::Program => "program",
    };
    let page = format!("{kind} page {}", geometry.page_number(location));
    let quads = geometry.page_quads();
    let (work, steps) = match device.nvmop() {
        2 => {
            let quad = location.offset / 16 % quads;
            (format!("programming of quad {quad} of {page}"), 1)
        }
        4 => (format!("erase of {page}"), quads),
        other => panic!("an update has no operation {other}"),
    };
    let bank = device.bank_at(location.kind, location.side).number();
    let step = device.step_number + 1;
    format!("an operation runs:\n{work} of bank {bank}, step {step} of {steps}")
}

/// What is said of the operation at a place of a sign.
fn said(sizes: &str, place: u32, options: &str) -> String {
    let line = format!("cut {sizes} {place} brown-out{options}");
    let printed = run(&line.split(' ').collect::<Vec<_>>()).printed();
    let (_, rest) = printed.split_once("the supply fails while ").expect("it");
    let (operation, _) = rest.split_once(".\n\n").expect("a picture");
    operation.into()
}

fn check(sizes: &str, places: &[(u32, String)]) {
    for (place, operation) in places {
        let expected = match operation.as_str() {
            "" => String::from("no operation runs"),
            operation => format!("an operation runs:\n{operation}"),
        };
        assert_eq!(said(sizes, *place, ""), expected, "{sizes} {place}");
    }
}

const NONE: String = String::new();

fn erase(page: &str, step: u32, steps: u32) -> String {
    format!("erase of {page} of bank 2, step {step} of {steps}")
}

fn programming(quad: u32, page: &str) -> String {
    format!("programming of quad {quad} of {page} of bank 2, step 1 of 1")
}

/// The first 12 actions have none. Each of the 8 pages has 7 stores, the last of which launches, 8 steps and a store; the last boot page is
/// the first. From place 140 on each quad has 11 stores, the last of which launches, a step and a store.
#[test]
fn operations_of_a_small_sign() {
    let places = [
        (0, NONE),
        (7, NONE),
        (18, NONE),
        (19, erase("boot page 1", 1, 8)),
        (20, erase("boot page 1", 2, 8)),
        (26, erase("boot page 1", 8, 8)),
        (27, NONE),
        (34, NONE),
        (35, erase("boot page 0", 1, 8)),
        (51, erase("program page 0", 1, 8)),
        (138, erase("program page 5", 8, 8)),
        (139, NONE),
        (150, NONE),
        (151, programming(0, "program page 0")),
        (152, NONE),
        (242, programming(7, "program page 0")),
        (255, programming(0, "program page 1")),
        (762, programming(7, "program page 5")),
        (775, programming(0, "boot page 0")),
        (970, programming(7, "boot page 1")),
        (971, NONE),
        (972, NONE),
    ];
    check("1 2 6", &places);
}

/// With Q = 2 a page has 16 quads, and the first quad is programmed from place 60 on.
#[test]
fn operations_with_longer_pages() {
    let places = [
        (19, erase("boot page 0", 1, 16)),
        (34, erase("boot page 0", 16, 16)),
        (35, NONE),
        (50, erase("program page 0", 8, 16)),
        (266, programming(15, "program page 0")),
        (279, programming(0, "boot page 0")),
        (474, programming(15, "boot page 0")),
        (475, NONE),
    ];
    check("2 1 1", &places);
}

/// A read of the bank that is erased does the steps that are left; one of the other bank does none.
#[test]
fn operations_after_a_read() {
    let read = |address: &str| said("1 2 6", 21, &format!(" --read {address}"));
    assert_eq!(read("1FC20000"), "no operation runs");
    let other = "an operation runs:\nerase of boot page 1 of bank 2, step 3 of 8";
    assert_eq!(read("1FC00000"), other);
}

/// In the second try the operations are those of its own place.
#[test]
fn operations_of_a_second_try() {
    let arguments = "cut 1 2 6 970 power-on --then 20 other";
    let printed = run(&arguments.split(' ').collect::<Vec<_>>()).printed();
    let second = "At place 20 the supply fails while an operation runs:\n\
                  erase of boot page 1 of bank 2, step 2 of 8.\n";
    assert!(printed.contains(second), "{printed}");
}
