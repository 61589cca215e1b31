//! Declines 2 and 19 of a row.

use yohrundel::*;

use crate::sign::SMALL;
use crate::{text, told, Told};

/// Three signs whose banks of 64 words stand one after another, and what is handed over with them.
struct Row {
    signs: Vec<SignRecord>,
    k: u32,
    queue: Vec<u32>,
    last: u32,
    store: usize,
    image: usize,
    sram: usize,
}

fn signs(count: u32) -> Vec<SignRecord> {
    let sign = |number| SignRecord {
        device: Device::power_on(),
        place: 0,
        one: 128 * number,
        two: 128 * number + 64,
    };
    (0..count).map(sign).collect()
}

impl Row {
    fn new() -> Row {
        Row {
            signs: signs(3),
            k: 1,
            queue: Vec::new(),
            last: 2,
            store: 384,
            image: 64,
            sram: 0,
        }
    }

    fn schedule(&self) -> Told {
        let (image, sram) = (vec![7; self.image], vec![0; self.sram]);
        let supply = Supply {
            geometry: SMALL,
            k: self.k,
            image: &image,
            sram: &sram,
        };
        let mut standing = Standing {
            queue: Queue::of(&self.queue),
            last: self.last,
        };
        let (mut signs, mut store) = (self.signs.clone(), vec![0; self.store]);
        let named = culprit::schedule(&supply, &signs, &standing, &store);
        told(
            named,
            schedule(supply, &mut signs, &mut standing, &mut store),
        )
    }
}

fn changed(change: impl FnOnce(&mut Row)) -> Told {
    let mut row = Row::new();
    change(&mut row);
    row.schedule()
}

/// Before K of 0, which is 19.
#[test]
fn lengths_of_what_serves_all() {
    let lengths = |image: usize, sram: usize, k: u32| {
        changed(|row| (row.image, row.sram, row.k) = (image, sram, k))
    };
    assert_eq!(lengths(63, 0, 0), text("the image has 63 words, not 64"));
    let sram = text("the SRAM has 16385 words, more than 16384");
    assert_eq!(lengths(64, 16_385, 0), sram);
    assert_eq!(lengths(64, 16_384, 1), None);
}

#[test]
fn lengths_of_the_list() {
    let list = |count: u32| {
        changed(|row| {
            (row.signs, row.last) = (signs(count), 0);
            row.store = 128 * count as usize;
        })
    };
    assert_eq!(list(0), text("the list has 0 signs, not 1 to 32"));
    assert_eq!(list(33), text("the list has 33 signs, not 1 to 32"));
    assert_eq!([list(1), list(32)], [None, None]);
}

#[test]
fn k_and_the_last_served() {
    for k in [0, 33, u32::MAX] {
        let expected = text(&format!("K is {k}, not 1 to 32"));
        assert_eq!(changed(|row| row.k = k), expected);
    }
    assert_eq!(changed(|row| row.k = 32), None);
    let last = text("the last served is sign 3, not 0 to 2");
    assert_eq!(changed(|row| row.last = 3), last);
    assert_eq!(changed(|row| row.last = 2), None);
}

#[test]
fn queues() {
    let queue = |numbers: &[u32]| changed(|row| row.queue = numbers.to_vec());
    let count = text("the queue has 33 entries, more than 32");
    assert_eq!(queue(&[0; 33]), count);
    let overstep = text("entry 1 of the queue is sign 3, not 0 to 2");
    assert_eq!(queue(&[2, 3, 2]), overstep);
    let repeat = text("entries 0 and 2 of the queue are both sign 2");
    assert_eq!(queue(&[2, 0, 2, 3]), repeat);
    assert_eq!(queue(&[2, 0, 1]), None);
}

/// The last bank has words 320 to 383.
#[test]
fn banks_that_overhang() {
    let store = "bank 2 of sign 2 (words 320 to 383) overhangs the store of 383 words";
    assert_eq!(changed(|row| row.store = 383), text(store));
    assert_eq!(changed(|row| row.store = 384), None);
    let far = "bank 1 of sign 1 (words 4294967295 to 4294967358) overhangs the store of 384 words";
    assert_eq!(changed(|row| row.signs[1].one = u32::MAX), text(far));
}

#[test]
fn banks_that_overlap() {
    let own = "bank 1 of sign 0 (words 0 to 63) and bank 2 of sign 0 (words 63 to 126) overlap";
    assert_eq!(changed(|row| row.signs[0].two = 63), text(own));
    let other =
        "bank 2 of sign 0 (words 64 to 127) and bank 1 of sign 2 (words 127 to 190) overlap";
    assert_eq!(
        changed(|row| {
            row.signs[1] = SignRecord {
                one: 256,
                two: 320,
                ..row.signs[1]
            };
            row.signs[2].one = 127;
        }),
        text(other)
    );
    let exchanged = changed(|row| {
        let sign = &mut row.signs[0];
        (sign.one, sign.two) = (64, 0);
    });
    assert_eq!(exchanged, None);
}
