//! Single rules of a row of signs on one supply.

use model::device::*;
use model::geometry::{Banks, Geometry, ALL_ONES};
use model::schedule::{schedule, Common, Row, Served, Sign};
use model::sequence::word_of;
use model::update::{total, turn};
use model::{Answer, Refusal};

const SMALL: [u32; 3] = [1, 1, 1];

/// Words of a bank.
const WORDS: u32 = 64;

/// The place of the launch of the first erase, and of its first step.
const LAUNCH: u32 = 18;
const STEP: u32 = 19;

/// Device and place of a sign in its update.
fn at(place: u32) -> (Device, u32) {
    let (mut one, mut two) = (vec![ALL_ONES; 64], vec![ALL_ONES; 64]);
    one[28] = word_of(7);
    let mut banks = Banks {
        one: &mut one,
        two: &mut two,
    };
    let image = [ALL_ONES; 64];
    let mut device = Device::reset_values();
    for place in 0..place {
        let turned = turn(SMALL, device, &mut banks, &image, &[], place);
        device = turned.unwrap().device;
    }
    (device, place)
}

fn finished() -> (Device, u32) {
    (
        Device::reset_values(),
        total(&Geometry::new(SMALL).unwrap()),
    )
}

/// WR is set and the turn is declined: 5, or 3 where LVDERR is set, too.
fn busy(more: u32) -> (Device, u32) {
    let (mut device, _) = at(STEP);
    device.set_con(more);
    (device, 0)
}

/// The target of the launch lies outside the windows.
fn failing() -> (Device, u32) {
    let (mut device, place) = at(LAUNCH);
    device.registers[NVMADDR] = 0;
    (device, place)
}

/// A row whose banks stand one after another, in a store that they fill.
fn row(signs: &[(Device, u32)], queue: &[u32], last: u32) -> (Row, Vec<u32>) {
    let signs: Vec<Sign> = signs
        .iter()
        .zip(0..)
        .map(|((device, place), number)| Sign {
            device: *device,
            place: *place,
            starts: [2 * number * WORDS, (2 * number + 1) * WORDS],
        })
        .collect();
    let store = vec![ALL_ONES; 2 * signs.len() * WORDS as usize];
    let queue = queue.to_vec();
    (Row { signs, queue, last }, store)
}

fn call((row, store): &mut (Row, Vec<u32>), most: u32) -> Answer<Option<Served>> {
    let common = Common {
        numbers: SMALL,
        image: &[ALL_ONES; 64],
        sram: &[],
    };
    schedule(&common, most, row, store)
}

/// The record that a call serves, and the queue and the last served after it.
fn left(
    signs: &[(Device, u32)],
    queue: &[u32],
    last: u32,
    most: u32,
) -> (Option<u32>, Vec<u32>, u32) {
    let mut row = row(signs, queue, last);
    let served = call(&mut row, most).unwrap();
    (served.map(|served| served.record), row.0.queue, row.0.last)
}

/// "those of one call in record order", though the search meets 3, 4, 0 and 1; behind those that waited.
#[test]
fn signs_begin_to_wait_in_record_order() {
    let launching = at(LAUNCH);
    let signs = [launching, launching, at(STEP), launching, launching];
    assert_eq!(left(&signs, &[], 2, 1), (Some(2), vec![0, 1, 3, 4], 2));
    assert_eq!(left(&signs, &[4, 1], 2, 1), (Some(2), vec![4, 1, 0, 3], 2));
    // Only those that are met before the served one.
    assert_eq!(left(&signs, &[], 3, 1), (Some(2), vec![0, 1, 4], 2));
    assert_eq!(left(&signs, &[], 1, 1), (Some(2), vec![], 2));
}

#[test]
fn the_longest_waiting_is_served_and_leaves() {
    let signs = [at(LAUNCH), at(LAUNCH), at(LAUNCH), at(0)];
    assert_eq!(left(&signs, &[2, 0, 1], 2, 1), (Some(2), vec![0, 1], 2));
    assert_eq!(left(&signs, &[1], 2, 1), (Some(1), vec![], 1));
    let signs = [at(LAUNCH), at(STEP), at(LAUNCH), at(0)];
    assert_eq!(left(&signs, &[2, 0], 0, 2), (Some(2), vec![0], 2));
    assert_eq!(left(&signs, &[2, 0], 1, 1), (Some(3), vec![2, 0], 3));
}

/// "A record whose turn 01 declines is passed over like a finished one": in the queue it keeps its position.
#[test]
fn passed_over_in_the_queue_and_in_the_round() {
    let impossible = {
        let (mut device, place) = at(0);
        device.key_step = 4;
        (device, place)
    };
    let past = (finished().0, finished().1 + 1);
    let no_step = (Device::reset_values(), STEP);
    for over in [finished(), past, impossible, no_step] {
        let signs = [over, at(LAUNCH), at(LAUNCH)];
        assert_eq!(left(&signs, &[0, 2, 1], 2, 1), (Some(2), vec![0, 1], 2));
        assert_eq!(left(&signs, &[0], 2, 1), (Some(1), vec![0], 1));
        assert_eq!(left(&signs, &[], 2, 1), (Some(1), vec![], 1));
        assert_eq!(left(&[over, over], &[1], 0, 1), (None, vec![1], 0));
    }
}

/// "WR is counted by the bit": of records that are passed over, too; more than K is no decline.
#[test]
fn who_counts_as_running() {
    for over in [busy(0), busy(LVDERR), (busy(0).0, finished().1)] {
        let signs = [at(LAUNCH), over, at(LAUNCH)];
        assert_eq!(left(&signs, &[], 1, 1), (None, vec![0, 2], 1));
        assert_eq!(left(&signs, &[], 1, 2), (Some(2), vec![], 2));
        assert_eq!(left(&[over, over, at(0)], &[], 0, 1), (Some(2), vec![], 2));
    }
}

/// A turn that sets no WR is served while K are set: a store, a step, and a launch that fails, with its event.
#[test]
fn served_while_as_many_are_set() {
    for sign in [at(0), at(LAUNCH - 1), at(STEP), at(26)] {
        let signs = [at(LAUNCH), sign, busy(0)];
        assert_eq!(left(&signs, &[], 2, 1), (Some(1), vec![0], 1));
    }
    let mut fails = row(&[at(LAUNCH), failing(), busy(0)], &[], 2);
    let served = call(&mut fails, 1).unwrap().unwrap();
    assert_eq!((served.record, served.event), (1, true));
    assert_eq!(fails.0.queue, [0]);
}

/// "unfinished and not waiting": such a sign is served from the queue alone.
#[test]
fn a_queued_sign_is_not_served_from_the_round() {
    for sign in [at(0), at(STEP), failing()] {
        let signs = [sign, busy(0)];
        assert_eq!(left(&signs, &[0], 1, 1), (None, vec![0], 1));
        assert_eq!(left(&signs, &[], 1, 1), (Some(0), vec![], 0));
        assert_eq!(left(&signs, &[0], 1, 3), (Some(0), vec![], 0));
    }
}

#[test]
fn the_last_served_is_the_last_candidate() {
    let signs = [at(0), finished(), at(0)];
    assert_eq!(left(&signs, &[], 0, 1), (Some(2), vec![], 2));
    assert_eq!(left(&signs, &[], 1, 1), (Some(2), vec![], 2));
    assert_eq!(left(&signs, &[], 2, 1), (Some(0), vec![], 0));
    let signs = [finished(), at(0), finished()];
    assert_eq!(left(&signs, &[], 1, 1), (Some(1), vec![], 1));
    assert_eq!(left(&[at(0)], &[], 0, 1), (Some(0), vec![], 0));
}

/// With K = 1 two signs erase a page in turn: launch and eight steps of one while the other waits, then the other's.
#[test]
fn two_signs_in_turn() {
    let mut row = row(&[at(LAUNCH), at(LAUNCH)], &[], 1);
    let mut served = Vec::new();
    for _ in 0..18 {
        served.push(call(&mut row, 1).unwrap().unwrap().record);
    }
    assert_eq!(served[..9], [0; 9]);
    assert_eq!(served[9..11], [1, 0], "the waiting one launches");
    let places: Vec<u32> = row.0.signs.iter().map(|sign| sign.place).collect();
    assert_eq!(places.iter().sum::<u32>(), 2 * LAUNCH + 18);
    assert!(row.0.running() <= 1);
}

/// Decline 19 on both sides of each edge; what is declined keeps its contents.
#[test]
fn rows_that_are_declined() {
    let declined = |change: &dyn Fn(&mut Row, &mut Vec<u32>), most| {
        let mut lent = row(&[at(0), at(0)], &[1], 1);
        change(&mut lent.0, &mut lent.1);
        let before = lent.clone();
        let answer = call(&mut lent, most);
        if answer.is_err() {
            assert_eq!(lent, before);
        }
        answer.err()
    };
    let judge = |change: &dyn Fn(&mut Row, &mut Vec<u32>)| declined(change, 1);
    let unchanged = |_: &mut Row, _: &mut Vec<u32>| {};
    for (most, refusal) in [
        (0, Some(Refusal::Row)),
        (1, None),
        (32, None),
        (33, Some(Refusal::Row)),
        (ALL_ONES, Some(Refusal::Row)),
    ] {
        assert_eq!(declined(&unchanged, most), refusal, "{most}");
    }
    for (last, refusal) in [(0, None), (1, None), (2, Some(Refusal::Row))] {
        assert_eq!(judge(&|row, _| row.last = last), refusal);
    }
    for queue in [vec![2], vec![0, 2], vec![1, 1], vec![1, 0, 1], vec![0; 33]] {
        let change = |row: &mut Row, _: &mut Vec<u32>| row.queue.clone_from(&queue);
        assert_eq!(judge(&change), Some(Refusal::Row), "{queue:?}");
    }
    assert_eq!(judge(&|row, _| row.queue = vec![1, 0]), None);
    assert_eq!(judge(&|row, _| row.signs.clear()), Some(Refusal::Row));
    assert_eq!(judge(&|_, store| store.truncate(255)), Some(Refusal::Row));
    assert_eq!(judge(&|_, store| store.push(0)), None);
}

/// Each bank moved so that it touches, overlaps by a word or overhangs; a sum of 32 bits would wrap.
#[test]
fn banks_that_overlap_or_overhang() {
    for bank in 0..4 {
        let at = |start| {
            let mut lent = row(&[at(0), at(0)], &[], 1);
            lent.1.resize(400, ALL_ONES);
            lent.0.signs[bank / 2].starts[bank % 2] = start;
            call(&mut lent, 1).err()
        };
        for start in [256, 300, 336] {
            assert_eq!(at(start), None, "{bank} {start}");
        }
        for start in [255, 337, 400, ALL_ONES - 63, ALL_ONES - 62, ALL_ONES] {
            let overlaps = start != 255 || bank != 3;
            let expected = overlaps.then_some(Refusal::Row);
            assert_eq!(at(start), expected, "{bank} {start}");
        }
    }
}

/// "1 to 32" signs.
#[test]
fn the_fewest_and_the_most_signs() {
    for (count, refusal) in [(1, None), (32, None), (33, Some(Refusal::Row))] {
        let mut lent = row(&vec![at(0); count as usize], &[], count - 1);
        assert_eq!(call(&mut lent, 1).err(), refusal, "{count}");
    }
}

/// "19, after 1 and 2".
#[test]
fn declines_that_come_first() {
    for (numbers, image, sram, refusal) in [
        ([3, 1, 1], 65, 16_385, Refusal::Geometry),
        (SMALL, 65, 0, Refusal::Length),
        (SMALL, 64, 16_385, Refusal::Length),
        (SMALL, 64, 16_384, Refusal::Row),
    ] {
        let (image, sram) = (vec![0; image], vec![0; sram]);
        let common = Common {
            numbers,
            image: &image,
            sram: &sram,
        };
        let (mut row, mut store) = row(&[at(0)], &[], 1);
        let answer = schedule(&common, 1, &mut row, &mut store);
        assert_eq!(answer, Err(refusal));
    }
}
