//! Lists of tries of one update, each cut and followed by resets and cut start-ups, move by move beside the model.

use model::generate::{accepted_start, random_try};
use model::geometry::Geometry;
use model::random::Random;
use model::tries::Move;
use yohrundel::Decline;

use crate::settings::{cases, seed, Report, Within};
use crate::sign::Sign;

const SIGNS: [[u32; 3]; 5] = [[1, 1, 1], [1, 2, 1], [2, 1, 1], [1, 1, 3], [4, 2, 2]];

/// The most tries of a list that are cut; a whole one follows.
const CUT_TRIES: u32 = 5;

/// What the lists held.
#[derive(Default)]
struct Counts {
    tries: u32,
    moves: u32,
    declined: u32,
    tears: u32,
    waits: u32,
    cut_start_ups: u32,
    runs_new: u32,
}

/// A sign with the place of its update.
struct Updated {
    sign: Sign,
    total: u32,
    place: u32,
}

impl Updated {
    /// One move of both; what a turn, read or step gives is compared where it is made.
    fn make(&mut self, next: Move, counts: &mut Counts) -> Result<(), Decline> {
        let sign = &mut self.sign;
        match next {
            Move::Turn { sram } => self.turns(sram, 1),
            Move::Turns { sram, count } => self.turns(sram, count),
            Move::FlashRead { address } => {
                counts.waits += u32::from(sign.try_read_flash(&[], address)?);
                Ok(())
            }
            Move::Step => sign.try_step(&[]),
            Move::Reset { kind, mask } => {
                counts.tears += u32::from(sign.device.operation_runs());
                sign.try_reset(&[], kind, mask)
            }
            Move::StartUp => sign.try_start_up(),
            Move::CutStartUp { stores } => {
                counts.cut_start_ups += 1;
                sign.try_cut_start_up(stores)
            }
            Move::UpdateStart => {
                assert_eq!(sign.start(), self.total, "the same update is accepted");
                self.place = 0;
                Ok(())
            }
        }
    }

    fn turns(&mut self, sram: u32, count: u32) -> Result<(), Decline> {
        let sram = vec![0; sram as usize];
        for _ in 0..count {
            self.place = self.sign.try_turn(&sram, self.place)?;
        }
        Ok(())
    }

    /// One try, begun while the old bank runs; true where it ends with the new one.
    fn try_once(&mut self, moves: &[Move], counts: &mut Counts) -> bool {
        let mut runs_new = false;
        for next in moves {
            let made = self.make(*next, counts);
            counts.moves += 1;
            counts.declined += u32::from(made.is_err());
            match next {
                Move::Reset { kind: 3.., .. } => assert_eq!(made, Err(Decline::ResetKind)),
                Move::Reset { .. } | Move::CutStartUp { .. } => assert_eq!(made, Ok(())),
                Move::StartUp => {
                    assert_eq!(made, Ok(()));
                    runs_new = self.sign.runs_new(self.sign.runs());
                }
                _ => {}
            }
        }
        if self.place == self.total {
            assert!(runs_new, "a try that reached the total runs the old bank");
        }
        counts.tries += 1;
        runs_new
    }

    /// Tries until the new bank runs; the last is whole.
    fn tries(&mut self, geometry: &Geometry, random: &mut Random, counts: &mut Counts) {
        for _ in 0..random.between(1, CUT_TRIES) {
            if self.try_once(&random_try(random, geometry), counts) {
                counts.runs_new += 1;
                return;
            }
        }
        let (sram, count) = (0, self.total);
        let reset = Move::Reset {
            kind: random.below(3),
            mask: random.mask(),
        };
        let turns = Move::Turns { sram, count };
        let whole = [Move::UpdateStart, turns, reset, Move::StartUp];
        assert!(self.try_once(&whole, counts), "the old bank runs");
    }
}

#[test]
fn lists_of_tries() {
    let seed = seed(24);
    let report = Report::new(format!("lists of tries, seed {seed}"));
    let (count, mut counts) = (cases(150), Counts::default());
    for number in 0..count {
        let own_seed = seed.wrapping_mul(1_000_000) + number as u64;
        let numbers = SIGNS[number % SIGNS.len()];
        let _within = Within(format!("in tries of a sign {numbers:?}, seed {own_seed}"));
        let mut random = Random::new(own_seed);
        let geometry = Geometry::new(numbers).expect("a sign");
        let sign = Sign::new(numbers, accepted_start(&mut random, &geometry));
        let (total, place) = (sign.start(), 0);
        let mut updated = Updated { sign, total, place };
        updated.tries(&geometry, &mut random, &mut counts);
    }
    let Counts {
        tries,
        moves,
        declined,
        tears,
        waits,
        cut_start_ups,
        runs_new,
    } = counts;
    report.finish(format_args!(
        "{count} lists, {tries} tries, {moves} moves, {declined} of them declined, {tears} cuts \
         while an operation runs, {waits} reads that waited, {cut_start_ups} cut start-ups, \
         {runs_new} tries that were cut and run the new bank"
    ));
}
