//! Lists of tries of one update, each cut anywhere and followed by any resets and cut start-ups up to a completed start-up.

use model::device::Device;
use model::generate::{accepted_start, random_image, random_try};
use model::geometry::{Bank, Geometry, Kind, Side, ALL_ONES};
use model::random::Random;
use model::sequence::{low_half, new_quad, word_of};
use model::tries::{Made, Move, Sign};
use model::update::total;
use model::Refusal;

/// What an update is to lead to: the old bank is kept, the new one is the image with the quad that follows the first start's t.
struct Update {
    geometry: Geometry,
    start: Sign,
    old: Bank,
    new_words: Vec<u32>,
    total: u32,
}

fn words(sign: &Sign, bank: Bank) -> &[u32] {
    &sign.banks[bank.number() as usize - 1]
}

fn reset(kind: u32, mask: [u32; 4]) -> Move {
    Move::Reset { kind, mask }
}

fn turns(count: u32) -> Move {
    Move::Turns { sram: 0, count }
}

/// Moves that are not declined.
fn make_all(sign: &mut Sign, moves: &[Move]) {
    for next in moves {
        assert!(sign.make(*next).is_ok(), "{next:?}");
    }
}

impl Update {
    fn new(mut start: Sign) -> Update {
        let geometry = Geometry::new(start.numbers).unwrap();
        start.make(Move::UpdateStart).expect("an accepted start");
        let old = start.device.running_bank().expect("both swaps agree");
        let index = geometry.sequence_index();
        let mut new_words = start.image.clone();
        let low = low_half(words(&start, old)[index]);
        new_words[index..index + 4].copy_from_slice(&new_quad(low));
        Update {
            geometry,
            start,
            old,
            new_words,
            total: total(&geometry),
        }
    }

    /// The smallest sign after power-on and start-up, with T = 7 in its old bank.
    fn smallest(old: Bank, other: u32) -> Update {
        let numbers = [1, 1, 1];
        let geometry = Geometry::new(numbers).unwrap();
        let mut banks = [random_image(&geometry, 5), random_image(&geometry, 6)];
        let number = old.number() as usize - 1;
        banks[number][geometry.sequence_index()] = word_of(7);
        banks[1 - number][geometry.sequence_index()] = other;
        let image = random_image(&geometry, 7);
        let mut sign = Sign::new(numbers, Device::reset_values(), banks, image);
        make_all(&mut sign, &[reset(0, [0; 4]), Move::StartUp]);
        assert_eq!(sign.device.running_bank(), Some(old));
        Update::new(sign)
    }

    fn old_words(&self) -> &[u32] {
        words(&self.start, self.old)
    }

    /// "the sign runs the whole old bank or exactly the new"; while it runs the old "the next start is accepted". True for the new.
    fn check_started_up(&self, sign: &Sign) -> bool {
        assert_eq!(words(sign, self.old), self.old_words());
        let runs = sign.device.running_bank().expect("both swaps agree");
        if runs == self.old {
            let mut next = sign.clone();
            assert_eq!(next.make(Move::UpdateStart), Ok(Made::default()));
            assert_eq!((next.place, next.device), (0, sign.device));
            return false;
        }
        assert_eq!(words(sign, runs), self.new_words);
        true
    }

    /// The same update uncut "ends, after a reset and a completed start-up, with the new".
    fn check_whole_try(&self, sign: &Sign, kind: u32) {
        let mut sign = sign.clone();
        make_all(&mut sign, &[Move::UpdateStart, turns(self.total)]);
        assert_eq!(sign.place, self.total);
        make_all(&mut sign, &[reset(kind, [0; 4]), Move::StartUp]);
        assert!(self.check_started_up(&sign));
    }

    /// Which declines a move may get; only a reset of no kind, and what a try may hold beside its cut, gets one.
    fn check_answer(&self, next: Move, answer: Result<Made, Refusal>) {
        let Err(refusal) = answer else {
            return;
        };
        let expected = match next {
            Move::Turn { .. } | Move::Turns { .. } | Move::Step => {
                refusal == Refusal::NotRunning || next.sram() == Some(16_385)
            }
            Move::FlashRead { address } => {
                let inside = self.geometry.locate(address).is_some();
                !inside || address % 4 != 0
            }
            Move::Reset { kind, .. } => kind > 2,
            Move::StartUp | Move::CutStartUp { .. } | Move::UpdateStart => false,
        };
        assert!(expected, "{next:?}: {refusal:?}");
    }

    /// One try from a completed start-up that runs the old bank; true where it runs the new one then.
    fn try_once(&self, sign: &mut Sign, moves: &[Move], counts: &mut Counts) -> bool {
        let (mut runs_new, mut reached) = (false, false);
        for next in moves {
            let before = sign.clone();
            let answer = sign.make(*next);
            self.check_answer(*next, answer);
            if answer.is_err() && !matches!(next, Move::Turns { .. }) {
                assert_eq!(*sign, before, "{next:?} is declined and changes nothing");
            }
            assert_eq!(words(sign, self.old), self.old_words());
            counts.count(*next, answer, &before);
            reached |= sign.place == self.total;
            if *next == Move::StartUp {
                runs_new = self.check_started_up(sign);
            }
        }
        if reached {
            assert!(runs_new, "a try that reached the total runs the old bank");
            counts.totals += 1;
        }
        runs_new
    }

    /// Tries until the new bank runs, or the last, which is whole.
    fn tries(&self, random: &mut Random, counts: &mut Counts) {
        let mut sign = self.start.clone();
        for number in 1..=random.between(1, 6) {
            let moves = random_try(random, &self.geometry);
            if self.try_once(&mut sign, &moves, counts) {
                counts.runs_new[usize::from(number > 1)] += 1;
                return;
            }
            counts.runs_old += 1;
        }
        self.check_whole_try(&sign, random.below(3));
    }
}

/// What the lists held.
#[derive(Debug, Default)]
struct Counts {
    tears: u32,
    waits: u32,
    inside: u32,
    cut_start_ups: [u32; 2],
    declined_resets: u32,
    totals: u32,
    runs_old: u32,
    /// In the first try, and in a later one.
    runs_new: [u32; 2],
}

impl Counts {
    fn count(&mut self, next: Move, answer: Result<Made, Refusal>, before: &Sign) {
        match (next, answer) {
            (Move::Reset { .. }, Ok(_)) => self.tears += u32::from(before.device.running()),
            (Move::Reset { .. }, Err(_)) => self.declined_resets += 1,
            (Move::FlashRead { .. }, Ok(made)) => self.waits += u32::from(made.event),
            (Move::Step, Ok(_)) => self.inside += 1,
            (Move::CutStartUp { .. }, _) => {
                let lower = before.device.lower_alias_bank().number();
                self.cut_start_ups[lower as usize - 1] += 1;
            }
            _ => {}
        }
    }

    fn check(&self, most: u32) {
        let Counts {
            cut_start_ups: [zero, one],
            runs_new: [first, later],
            ..
        } = *self;
        let seldom = [self.waits, self.totals, self.inside, first, later];
        let often = [self.tears, zero, one, self.declined_resets, self.runs_old];
        assert!(seldom.iter().all(|count| *count > most / 60), "{self:?}");
        assert!(often.iter().all(|count| *count > most / 10), "{self:?}");
    }
}

#[test]
fn lists_of_tries_of_the_smallest_sign() {
    let mut random = Random::new(21);
    let mut counts = Counts::default();
    let others = [ALL_ONES, word_of(0), word_of(6), 0xFFFF_0001, 0x8000_8000];
    for number in 0..3_000 {
        let old = [Bank::One, Bank::Two][number % 2];
        let update = Update::smallest(old, others[number % others.len()]);
        update.tries(&mut random, &mut counts);
    }
    counts.check(3_000);
}

#[test]
fn lists_of_tries_of_any_accepted_start() {
    let mut random = Random::new(22);
    let mut counts = Counts::default();
    for number in 0..2_000 {
        let numbers = [[1, 1, 1], [1, 2, 1], [1, 1, 2], [2, 1, 1]][number % 4];
        let geometry = Geometry::new(numbers).unwrap();
        let start = accepted_start(&mut random, &geometry);
        let sign = Sign::new(numbers, start.device, start.banks, start.image);
        Update::new(sign).tries(&mut random, &mut counts);
    }
    counts.check(2_000);
}

/// Masks that leave the old quad, the new one and mixtures of both.
const MASKS: [[u32; 4]; 4] = [
    [0; 4],
    [ALL_ONES; 4],
    [0x0000_FFFF, 0, ALL_ONES, 0x1234_5678],
    [0x5555_5555; 4],
];

/// Every place, kind and mask, then a start-up cut after each number of stores, with a reset after it or none.
#[test]
fn every_cut_start_up_of_the_smallest_sign() {
    for old in [Bank::One, Bank::Two] {
        let update = Update::smallest(old, word_of(6));
        let mut runs = [0, 0];
        for place in 0..=update.total {
            let mut reached = update.start.clone();
            make_all(&mut reached, &[turns(place)]);
            for kind in 0..3 {
                for mask in MASKS {
                    let mut cut = reached.clone();
                    make_all(&mut cut, &[reset(kind, mask)]);
                    let runs_new = cut_start_ups(&update, &cut, kind);
                    runs[usize::from(runs_new)] += 1;
                }
            }
        }
        // At the last two places, and at the step of the sequence quad with the mask of all ones.
        assert_eq!(runs, [12 * 251 - 3, 3 + 12 * 2]);
    }
}

/// Start-ups of a sign after its cut, each cut after some stores; all end alike. True where the new bank runs.
fn cut_start_ups(update: &Update, cut: &Sign, kind: u32) -> bool {
    let mut whole = cut.clone();
    make_all(&mut whole, &[Move::StartUp]);
    let runs_new = update.check_started_up(&whole);
    for stores in 0..=6 {
        for between in [None, Some(reset(kind, [7; 4]))] {
            let mut sign = cut.clone();
            make_all(&mut sign, &[Move::CutStartUp { stores }]);
            make_all(&mut sign, between.as_slice());
            make_all(&mut sign, &[Move::StartUp]);
            assert_eq!(update.check_started_up(&sign), runs_new);
            assert_eq!(sign.banks, whole.banks);
        }
    }
    if !runs_new {
        update.check_whole_try(&whole, kind);
    }
    runs_new
}

/// "the first k stores of a start-up (all, where it has fewer)", for both settings of BFSWAP.
#[test]
fn stores_of_a_cut_start_up() {
    for (old, count) in [(Bank::One, 1), (Bank::Two, 5)] {
        let update = Update::smallest(old, ALL_ONES);
        let mut sign = update.start.clone();
        make_all(&mut sign, &[reset(0, [0; 4])]);
        let [before, after] = [0, u32::MAX].map(|stores| {
            let mut cut = sign.clone();
            make_all(&mut cut, &[Move::CutStartUp { stores }]);
            cut.device
        });
        assert_eq!(before, sign.device);
        assert_eq!(after, update.start.device);
        let changed = (1..=count).map(|stores| {
            let mut cut = sign.clone();
            make_all(&mut cut, &[Move::CutStartUp { stores }]);
            (cut.device.key_step, cut.device.running_bank().is_some())
        });
        let expected = match old {
            Bank::One => vec![(0, true)],
            Bank::Two => vec![(1, false), (2, false), (3, false), (0, true), (0, true)],
        };
        assert_eq!(changed.collect::<Vec<_>>(), expected);
    }
}

/// While an operation runs a start-up is declined, be it cut or not, and after a read that waited the start is accepted again.
#[test]
fn between_the_cut_and_the_launch() {
    let update = Update::smallest(Bank::One, word_of(6));
    let mut sign = update.start.clone();
    make_all(&mut sign, &[turns(19)]);
    for next in [
        Move::StartUp,
        Move::CutStartUp { stores: 0 },
        Move::UpdateStart,
    ] {
        assert_eq!(sign.make(next), Err(Refusal::Running));
    }
    let address = update.geometry.window_start(Kind::Boot, Side::Upper);
    let read = sign.make(Move::FlashRead { address }).unwrap();
    assert_eq!((read.word, read.event), (ALL_ONES, true));
    assert_eq!(sign.make(turns(5)), Err(Refusal::NotRunning));
    assert_eq!(sign.place, 19);
    make_all(&mut sign, &[Move::UpdateStart]);
    update.check_whole_try(&sign, 1);
}
