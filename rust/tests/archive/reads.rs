//! Flash reads between the turns of an update: those of the bank that is worked on wait, and the supply may fail inside them.

use model::generate::accepted_start;
use model::geometry::{Geometry, Kind, Side};
use model::random::Random;
use yohrundel::Decline;

use crate::settings::{cases, seed, Report, Within};
use crate::sign::Sign;

const SIGNS: [[u32; 3]; 5] = [[1, 1, 1], [1, 2, 1], [2, 1, 1], [1, 1, 3], [4, 2, 2]];

/// An address in one of the windows of a side.
pub fn address(random: &mut Random, geometry: &Geometry, side: Side) -> u32 {
    let kind = random.pick(&[Kind::Boot, Kind::Program]);
    let words = geometry.window_bytes(kind) / 4;
    geometry.window_start(kind, side) + 4 * random.below(words)
}

/// What became of a list of turns and reads.
#[derive(Default)]
struct Counts {
    reads: u32,
    waits: u32,
    declined: u32,
    inside: u32,
    runs_new: u32,
}

/// Turns up to a place with reads of the old bank among them, which change nothing.
fn turns_and_reads(
    sign: &mut Sign,
    geometry: &Geometry,
    random: &mut Random,
    last: u32,
    counts: &mut Counts,
) -> u32 {
    let mut place = 0;
    while place < last {
        if random.one_in(8) {
            let before = sign.device;
            let address = address(random, geometry, Side::Lower);
            assert!(!sign.read_flash(&[], address));
            assert_eq!(sign.device, before);
            counts.reads += 1;
        }
        place = sign.try_turn(&[], place).expect("a turn");
    }
    place
}

/// A read of the new bank: where it waited, the turns after it are declined and keep their place.
fn read_the_new_bank(
    sign: &mut Sign,
    geometry: &Geometry,
    random: &mut Random,
    place: u32,
    counts: &mut Counts,
) {
    let runs = sign.device.operation_runs();
    let sram = vec![7; random.below(9) as usize];
    let address = address(random, geometry, Side::Upper);
    assert_eq!(sign.read_flash(&sram, address), runs);
    if runs {
        counts.waits += 1;
        assert!(!sign.device.operation_runs());
        for _ in 0..2 {
            assert_eq!(sign.try_turn(&[], place), Err(Decline::Idle));
            counts.declined += 1;
        }
    }
}

/// A list of turns and reads from an accepted start, cut after it or inside its last read.
fn list(numbers: [u32; 3], random: &mut Random, counts: &mut Counts) {
    let geometry = Geometry::new(numbers).expect("a sign");
    let mut sign = Sign::new(numbers, accepted_start(random, &geometry));
    let total = sign.start();
    let last = random.below(total + 1);
    let mut place = turns_and_reads(&mut sign, &geometry, random, last, counts);
    while place < total && !sign.device.operation_runs() {
        place = sign.try_turn(&[], place).expect("a turn");
    }
    if random.one_in(2) {
        read_the_new_bank(&mut sign, &geometry, random, place, counts);
    } else {
        for _ in 0..random.below(9) {
            if sign.device.operation_runs() {
                sign.try_step(&[]).expect("a step");
                counts.inside += 1;
            }
        }
    }
    let runs = sign.restart(&[], random.below(3), random.mask());
    if sign.runs_new(runs) {
        counts.runs_new += 1;
        return;
    }
    ends_in_the_new_bank(&mut sign, total);
}

/// The same update is accepted again and, without reads, ends in the new bank.
fn ends_in_the_new_bank(sign: &mut Sign, total: u32) {
    assert_eq!(sign.start(), total);
    let mut place = 0;
    while let Some(next) = sign.turn(&[], place) {
        place = next;
    }
    assert_eq!(place, total);
    let runs = sign.restart(&[], 0, [0; 4]);
    assert!(sign.runs_new(runs));
}

#[test]
fn reads_between_turns() {
    let seed = seed(10);
    let report = Report::new(format!("updates with flash reads, seed {seed}"));
    let (count, mut counts) = (cases(300), Counts::default());
    for number in 0..count {
        let own_seed = seed.wrapping_mul(1_000_000) + number as u64;
        let numbers = SIGNS[number % SIGNS.len()];
        let _within = Within(format!("in a list of a sign {numbers:?}, seed {own_seed}"));
        list(numbers, &mut Random::new(own_seed), &mut counts);
    }
    let Counts {
        reads,
        waits,
        declined,
        inside,
        runs_new,
    } = counts;
    report.finish(format_args!(
        "{count} lists, {reads} reads of the old bank, {waits} that waited, {declined} turns \
         declined after them, {inside} steps inside a read, {runs_new} cuts that run the new bank"
    ));
}
