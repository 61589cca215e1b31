//! Two updates whose images differ in one word, beside each other: the actions, the places and the banks.

use model::generate::accepted_start;
use model::geometry::{Geometry as OutsideGeometry, Side};
use model::random::Random;
use model::reach::{self as outside, Reach as OutsideReach};
use yohrundel::*;

use crate::reads::address;
use crate::settings::{cases, seed, Report, Within};
use crate::sign::Sign;
use crate::written::written;

const SIGNS: [[u32; 3]; 6] = [
    [1, 1, 1],
    [1, 2, 1],
    [1, 1, 2],
    [2, 1, 1],
    [1, 3, 2],
    [4, 2, 1],
];

/// What became of the pairs of updates.
#[derive(Default)]
struct Counts {
    /// Of which no action differs.
    no_action: u32,
    turns: u32,
    waits: u32,
    /// Cuts after which the banks differ, and after which the new bank runs.
    differ: u32,
    runs_new: u32,
}

/// Two updates begun from the same start.
struct Updates {
    geometry: OutsideGeometry,
    signs: [Sign; 2],
    /// The index of the word in which the images differ.
    index: usize,
    /// The index of the bank that is written.
    new: usize,
}

/// A word in or beside the sequence quad, or any.
fn word_index(random: &mut Random, geometry: &OutsideGeometry) -> usize {
    match random.below(4) {
        0 => geometry.sequence_index() - 4 + random.below(12) as usize,
        _ => random.below(geometry.bank_words()) as usize,
    }
}

impl Updates {
    fn new(numbers: [u32; 3], random: &mut Random) -> Updates {
        let geometry = OutsideGeometry::new(numbers).expect("a sign");
        let seed = u64::from(random.word());
        let [start, mut other] =
            [seed; 2].map(|seed| accepted_start(&mut Random::new(seed), &geometry));
        let index = word_index(random, &geometry);
        other.image[index] ^= random.edge_word().max(1);
        let signs = [start, other].map(|start| Sign::new(numbers, start));
        let runs = signs[0].device.running_bank();
        Updates {
            geometry,
            new: usize::from(runs == Some(Bank::One)),
            signs,
            index,
        }
    }

    /// What the call says is what the model says, and the records of the scripts that differ; true where an action differs.
    fn check_reach(&self) -> bool {
        let [first, other] = &self.signs;
        let expected = outside::reach(first.numbers, &first.image, &other.image);
        let found = reach(first.geometry, &first.image, &other.image);
        let differing = differing_records(&written(first), &written(other));
        match expected.expect("the model compares the images") {
            OutsideReach::Action { place } => {
                assert_eq!(found, Ok(Reach::Action { place }));
                assert_eq!(differing, [place]);
                true
            }
            OutsideReach::NoAction => {
                assert_eq!(found, Ok(Reach::NoAction));
                assert_eq!(differing, []);
                false
            }
            words => panic!("the images differ in one word: {words:?}"),
        }
    }

    /// Whether the banks differ; if so, in the word of the new bank alone.
    fn differ(&self, stage: &str) -> bool {
        let [first, other] = &self.signs;
        let mut differing = Vec::new();
        for bank in 0..2 {
            let words = first.banks[bank].iter().zip(&other.banks[bank]);
            let unequal = words.enumerate().filter(|(_, (one, two))| one != two);
            differing.extend(unequal.map(|(index, _)| (bank, index)));
        }
        let none_or_the_word = differing.is_empty() || differing == [(self.new, self.index)];
        assert!(none_or_the_word, "{stage}: {differing:?}");
        !differing.is_empty()
    }

    /// One turn of both, without SRAM; the places are equal.
    fn turn(&mut self, place: u32) -> Result<u32, Decline> {
        let [first, other] = &mut self.signs;
        let turned = first.try_turn(&[], place);
        assert_eq!(other.try_turn(&[], place), turned);
        self.differ(&format!("place {place}"));
        turned
    }

    /// The same flash read of both; true where it waited.
    fn read(&mut self, random: &mut Random) -> bool {
        let side = random.pick(&[Side::Lower, Side::Lower, Side::Upper]);
        let address = address(random, &self.geometry, side);
        let [first, other] = &mut self.signs;
        let waited = first.read_flash(&[], address);
        assert_eq!(other.read_flash(&[], address), waited);
        self.differ("flash read");
        waited
    }

    /// The same cut and start-up of both: the same bank runs. True where it is the new one.
    fn cut(&mut self, kind: u32, mask: [u32; 4]) -> bool {
        let [first, other] = &mut self.signs;
        let runs = first.restart(&[], kind, mask);
        assert_eq!(other.restart(&[], kind, mask), runs);
        assert_eq!(first.runs_new(runs), other.runs_new(runs));
        runs == self.new
    }

    /// Turns up to a place, with flash reads among them; after one that waited the turn is declined, and the list ends.
    fn turns(&mut self, last: u32, random: &mut Random, counts: &mut Counts) {
        let mut place = 0;
        while place < last {
            if random.one_in(200) && self.read(random) {
                assert_eq!(self.turn(place), Err(Decline::Idle));
                counts.waits += 1;
                return;
            }
            place = self.turn(place).expect("a turn");
            counts.turns += 1;
        }
    }

    /// Some lists of turns, each cut, until the new bank runs; at last the whole update.
    fn update(&mut self, random: &mut Random, counts: &mut Counts) {
        let reaches = self.check_reach();
        counts.no_action += u32::from(!reaches);
        for _ in 0..random.between(1, 3) {
            let total = self.start();
            self.turns(last_place(random, total), random, counts);
            let new = self.cut(random.below(3), random.mask());
            counts.differ += u32::from(self.differ("a cut"));
            if new {
                counts.runs_new += 1;
                assert_eq!(self.differ("the new bank runs"), reaches);
                return;
            }
        }
        let total = self.start();
        for place in 0..total {
            self.turn(place).expect("a turn");
        }
        assert!(self.cut(random.below(3), [0; 4]), "the old bank runs");
        assert_eq!(self.differ("the new bank runs"), reaches);
    }

    /// Both starts are accepted.
    fn start(&self) -> u32 {
        let [first, other] = &self.signs;
        let total = first.start();
        assert_eq!(other.start(), total);
        total
    }
}

/// A place up to the total, one in three among the last, where the sequence quad is programmed.
fn last_place(random: &mut Random, total: u32) -> u32 {
    match random.below(3) {
        0 => total - random.below(4),
        _ => random.below(total + 1),
    }
}

/// The numbers of the records that differ.
fn differing_records(script: &[u8], other: &[u8]) -> Vec<u32> {
    assert_eq!(script.len(), other.len());
    let records = script.chunks(8).zip(other.chunks(8));
    let differing = (0..).zip(records).filter(|(_, (one, two))| one != two);
    differing.map(|(number, _)| number).collect()
}

#[test]
fn updates_with_a_word_that_differs() {
    let (seed, count) = (seed(30), cases(300));
    let report = Report::new(format!("pairs of updates a word apart, seed {seed}"));
    let mut counts = Counts::default();
    for number in 0..count {
        let own_seed = seed.wrapping_mul(1_000_000) + number as u64;
        let numbers = SIGNS[number % SIGNS.len()];
        let _within = Within(format!("in updates of a sign {numbers:?}, seed {own_seed}"));
        let mut random = Random::new(own_seed);
        Updates::new(numbers, &mut random).update(&mut random, &mut counts);
    }
    let Counts {
        no_action,
        turns,
        waits,
        differ,
        runs_new,
    } = counts;
    report.finish(format_args!(
        "{count} pairs, {no_action} of which no action differs, {turns} turns between cuts, \
         {waits} reads that waited, {differ} cuts after which the banks differ, \
         {runs_new} after which the new bank runs"
    ));
}
