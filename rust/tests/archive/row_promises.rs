//! Rows from a seed: what each call of the archive leaves is what the model's leaves, and what is promised of it.

use model::cases::{Call, Case};
use model::generate::{accepted_start, directed, random_image, Cases, Start};
use model::geometry::Geometry as OutsideGeometry;
use model::random::Random;
use model::schedule::{schedule as outside_schedule, Common, Row as OutsideRow};
use model::sequence::new_quad;
use yohrundel::*;

use crate::inputs::Inputs;
use crate::rows::Row;
use crate::settings::{cases, seed, Report, Within};
use crate::sign::device;

/// The row of a case in the archive and in the model.
struct Both {
    row: Row,
    outside: OutsideRow,
    outside_store: Vec<u32>,
}

/// What lists of calls held.
#[derive(Debug, Default)]
struct Counts {
    served: usize,
    idle: usize,
    launched: usize,
    above: usize,
    waited: usize,
    declined: usize,
}

impl Both {
    fn of_case(case: &Case) -> Both {
        let line = case.inputs();
        let (name, rest) = line.split_once(' ').expect("a name");
        let mut inputs = Inputs::new(rest);
        let geometry = inputs.geometry();
        if name == "schedule" {
            inputs.number();
        }
        let row = Row::new(geometry, &mut inputs);
        Both {
            outside: case.row.clone(),
            outside_store: row.store.clone(),
            row,
        }
    }

    /// One call of each; what they answer and leave is the same.
    fn call(&mut self, k: u32) -> Result<Option<Served>, Decline> {
        let Geometry { q, b, p } = self.row.geometry;
        let common = Common {
            numbers: [q, b, p],
            image: &self.row.image,
            sram: &self.row.sram,
        };
        let (outside, store) = (&mut self.outside, &mut self.outside_store);
        let expected = outside_schedule(&common, k, outside, store);
        let given = self.row.call(k);
        let numbers = |served: Served| (served.record, served.event);
        assert_eq!(
            expected.map(|served| served.map(|served| (served.record, served.event))),
            given
                .map(|served| served.map(numbers))
                .map_err(|decline| refusal(decline.number()))
        );
        self.check_same();
        given
    }

    fn check_same(&self) {
        let signs = self.outside.signs.iter().map(|sign| SignRecord {
            device: device(&sign.device),
            place: sign.place,
            one: sign.starts[0],
            two: sign.starts[1],
        });
        assert!(signs.eq(self.row.signs.iter().copied()), "a record");
        let standing = Standing {
            queue: Queue::of(&self.outside.queue),
            last: self.outside.last,
        };
        assert_eq!(standing, self.row.standing);
        assert!(self.outside_store == self.row.store, "a word of the store");
    }
}

/// The refusals that a row has.
fn refusal(number: u32) -> model::Refusal {
    let all = [
        model::Refusal::Geometry,
        model::Refusal::Length,
        model::Refusal::Row,
    ];
    let found = all.into_iter().find(|refusal| refusal.number() == number);
    found.expect("a refusal of a row")
}

/// What a call promises of the signs: one did the turn of its place, as the call for one sign does it, and nothing of another changed.
fn check_turn(before: &Row, after: &Row, served: Served) {
    let (mut signs, mut store) = (before.signs.clone(), before.store.clone());
    let sign = &mut signs[served.record as usize];
    let words = before.image.len();
    let own = [sign.one as usize, sign.two as usize].map(|start| start..start + words);
    let [mut one, mut two] = own.clone().map(|bank| store[bank].to_vec());
    let (geometry, image, sram) = (before.geometry, &before.image, &before.sram);
    let turned = turn(
        geometry,
        sign.device,
        &mut one,
        &mut two,
        image,
        sram,
        sign.place,
    );
    let turned = turned.expect("a turn that is not declined");
    assert!(!turned.outcome.done && turned.outcome.event == served.event);
    (sign.device, sign.place) = (turned.device, turned.outcome.place);
    for (bank, words) in own.into_iter().zip([one, two]) {
        store[bank].copy_from_slice(&words);
    }
    assert!(signs == after.signs, "a record");
    assert!(store == after.store, "a word of the store");
    assert_eq!(after.standing.last, served.record);
}

/// "No call raises the number of signs with WR set above K", and an idle call changes who waits alone.
fn check_call(before: &Row, after: &Row, k: u32, served: Option<Served>, counts: &mut Counts) {
    let (was, is) = (before.running(), after.running());
    assert!(is <= was || is <= k as usize, "{was} {is} {k}");
    counts.launched += usize::from(is > was);
    counts.above += usize::from(is > k as usize);
    counts.waited += usize::from(after.standing.queue.count > before.standing.queue.count);
    match served {
        Some(served) => {
            counts.served += 1;
            check_turn(before, after, served);
        }
        None => {
            counts.idle += 1;
            assert_eq!(after.standing.last, before.standing.last);
            assert!(after.signs == before.signs && after.store == before.store);
        }
    }
}

fn check_calls(both: &mut Both, random: &mut Random, counts: &mut Counts) {
    for _ in 0..random.between(1, 60) {
        let before = both.row.clone();
        let k = random.pick(&[1, 1, 2, 3, 32]);
        match both.call(k) {
            Ok(served) => check_call(&before, &both.row, k, served, counts),
            Err(_) => {
                counts.declined += 1;
                return;
            }
        }
    }
}

/// Random and directed rows, with queues in any order and records that are passed over.
#[test]
fn calls_of_any_row() {
    let (seed, count) = (seed(41), cases(300));
    let report = Report::new(format!("rows of signs, seed {seed}"));
    let is_row = |case: &Case| matches!(case.call, Call::Schedule | Call::RowRun);
    let random_cases = Cases::of_requests(seed, 128).filter(is_row).take(count);
    let directed = directed::request_cases().into_iter().map(|(_, case)| case);
    let directed =
        directed.filter(|case: &Case| is_row(case) && case.lists[0].words().len() < 9_000);
    let (mut random, mut counts) = (Random::new(seed), Counts::default());
    for case in random_cases.chain(directed) {
        let _within = Within(case.inputs());
        check_calls(&mut Both::of_case(&case), &mut random, &mut counts);
    }
    let Counts { served, idle, .. } = counts;
    let often = [served, idle, counts.launched, counts.above, counts.waited];
    assert!(
        count < 300 || often.iter().all(|count| *count > 100),
        "{counts:?}"
    );
    assert!(counts.declined > 0, "{counts:?}");
    report.finish(format_args!("{counts:?}"));
}

/// The first word of a bank in the store, and what the bank must come to.
pub type End = (usize, Vec<u32>);

/// Signs at accepted starts, their banks one after another.
pub fn fresh(random: &mut Random, numbers: [u32; 3], count: usize) -> (Row, Vec<End>) {
    let [q, b, p] = numbers;
    let outside = OutsideGeometry::new(numbers).expect("sizes in range");
    let image = random_image(&outside, u64::from(random.word()));
    let mut row = Row {
        geometry: Geometry { q, b, p },
        signs: Vec::new(),
        standing: Standing::fresh(count),
        overlong: Vec::new(),
        store: Vec::new(),
        image,
        sram: Vec::new(),
    };
    let mut ends = Vec::new();
    for _ in 0..count {
        ends.extend(add_sign(&mut row, accepted_start(random, &outside)));
    }
    (row, ends)
}

/// Another sign: its old bank is to be kept, and its new one to be the image with the next sequence quad.
fn add_sign(row: &mut Row, start: Start) -> [End; 2] {
    let device = device(&start.device);
    let old = device.running_bank().expect("a bank that runs").number() as usize - 1;
    let firsts = [row.store.len(), row.store.len() + row.image.len()];
    let sequence = row.geometry.sequence_index().expect("a sequence word");
    let quad = new_quad(start.banks[old][sequence] as u16);
    let mut new_words = row.image.clone();
    new_words[sequence..sequence + 4].copy_from_slice(&quad);
    row.signs.push(SignRecord {
        device,
        place: 0,
        one: firsts[0] as u32,
        two: firsts[1] as u32,
    });
    row.store.extend(start.banks.concat());
    let old_words = start.banks[old].clone();
    [(firsts[old], old_words), (firsts[1 - old], new_words)]
}

/// A fresh row is idle after as many calls as all its updates have actions, and not before; then each old bank is whole and each new one
/// exactly the image with its sequence quad.
#[test]
fn fresh_rows_to_their_end() {
    let seed = seed(42);
    let report = Report::new(format!("fresh rows, seed {seed}"));
    let (mut random, mut calls) = (Random::new(seed), 0);
    for count in (1..=6).chain([31, 32]) {
        let numbers = random.pick(&[[1, 1, 1], [1, 2, 1], [1, 1, 2], [2, 1, 1]]);
        let (mut row, ends) = fresh(&mut random, numbers, count);
        let k = random.pick(&[1, 2, 3, 32]);
        let actions = count * row.geometry.script_bytes().expect("sizes in range") / 8;
        for _ in 0..actions {
            assert!(matches!(row.call(k), Ok(Some(_))), "an idle call");
            assert!(row.running() <= k as usize);
        }
        assert_eq!(row.call(k), Ok(None));
        assert_eq!(row.standing.queue, Queue::default());
        for (first, words) in ends {
            assert!(row.store[first..first + words.len()] == words);
        }
        calls += actions;
    }
    report.finish(format_args!("{calls} calls"));
}
