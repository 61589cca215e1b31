//! Whole updates with cuts, beside the model: the demand is that the sign runs the old bank, whole, or exactly the new one.

use model::generate::accepted_start;
use model::geometry::Geometry;
use model::random::Random;

use crate::settings::{cases, seed, Report, Within};
use crate::sign::Sign;

/// Small and larger signs.
const SIGNS: [[u32; 3]; 8] = [
    [1, 1, 1],
    [1, 2, 1],
    [2, 1, 1],
    [1, 5, 3],
    [2, 3, 2],
    [4, 1, 2],
    [8, 2, 1],
    [16, 1, 1],
];

pub const LARGEST: [u32; 3] = [128, 5, 128];

/// The update cut some times, and where the old bank runs then, once more to its end; counts the cuts.
fn update(sign: &mut Sign, random: &mut Random) -> u32 {
    let total = sign.start();
    let cuts = random.between(1, 3);
    for cut in 1..=cuts {
        let sram: Vec<u32> = (0..random.below(64)).map(|_| random.word()).collect();
        let place = sign.run(&sram, random.below(total + 1), random.one_in(2));
        let (kind, mask) = (random.below(3), random.mask());
        let runs = sign.restart(&sram, kind, mask);
        if sign.runs_new(runs) {
            return cut;
        }
        assert!(place < total, "after the whole update the old bank runs");
        assert_eq!(sign.start(), total, "the same update is accepted again");
    }
    let place = sign.run(&[], total, false);
    assert_eq!(sign.turn(&[], place), None, "done at the total");
    let runs = sign.restart(&[], random.below(3), [0; 4]);
    assert!(
        sign.runs_new(runs),
        "after the whole update the old bank runs"
    );
    cuts
}

/// Runs updates of signs; each has a seed of its own.
fn updates(name: &str, signs: &[[u32; 3]], seed: u64, count: usize) {
    let report = Report::new(format!("{name}, seed {seed}"));
    let (mut cuts, mut turns) = (0, 0);
    for number in 0..count {
        let own_seed = seed.wrapping_mul(1_000_000) + number as u64;
        let numbers = signs[number % signs.len()];
        let _within = Within(format!(
            "in the update of a sign {numbers:?}, seed {own_seed}"
        ));
        let mut random = Random::new(own_seed);
        let geometry = Geometry::new(numbers).expect("a sign");
        let mut sign = Sign::new(numbers, accepted_start(&mut random, &geometry));
        cuts += update(&mut sign, &mut random);
        turns += sign.turns;
    }
    report.finish(format_args!("{count} updates, {cuts} cuts, {turns} turns"));
}

#[test]
fn updates_of_signs() {
    updates("updates", &SIGNS, seed(6), cases(200));
}

#[test]
fn update_of_the_largest_sign() {
    updates("updates of the largest sign", &[LARGEST], seed(7), 1);
}
