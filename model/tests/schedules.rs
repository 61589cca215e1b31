//! A row of signs on one supply: what each call of a list leaves, who waits how long, and whole updates, cut and not.

use model::cases::{Call, Case};
use model::device::Device;
use model::flash::reset;
use model::generate::{accepted_start, random_image, Cases};
use model::geometry::{Bank, Banks, Geometry};
use model::random::Random;
use model::schedule::{schedule, Common, Row, Served, Sign, MOST_SIGNS};
use model::sequence::{low_half, new_quad};
use model::store::start_up;
use model::update::{total, turn, update_start};
use model::Answer;

/// A row with what is lent beside it.
#[derive(Clone, Debug, PartialEq, Eq)]
struct Supply {
    geometry: Geometry,
    row: Row,
    store: Vec<u32>,
    image: Vec<u32>,
    sram: Vec<u32>,
}

impl Supply {
    /// The row of a case, where a call accepts it.
    fn of_case(case: &Case) -> Option<Supply> {
        let [store, image, sram] = [0, 1, 2].map(|list| case.lists[list].words());
        let supply = Supply {
            geometry: Geometry::new(case.geometry).ok()?,
            row: case.row.clone(),
            store,
            image,
            sram,
        };
        supply.clone().call(1).is_ok().then_some(supply)
    }

    /// Signs at accepted starts, their banks one after another: nobody waits, and the last served is the list's last.
    fn fresh(random: &mut Random, geometry: Geometry, count: u32) -> Supply {
        let words = geometry.bank_words();
        let (mut signs, mut store) = (Vec::new(), Vec::new());
        for number in 0..count {
            let start = accepted_start(random, &geometry);
            signs.push(Sign {
                device: start.device,
                place: 0,
                starts: [2 * number * words, (2 * number + 1) * words],
            });
            store.extend(start.banks.concat());
        }
        Supply {
            geometry,
            row: Row {
                signs,
                queue: Vec::new(),
                last: count - 1,
            },
            store,
            image: random_image(&geometry, u64::from(random.word())),
            sram: vec![0; random.pick(&[0, 4, 16_384])],
        }
    }

    fn call(&mut self, most: u32) -> Answer<Option<Served>> {
        let common = Common {
            numbers: self.geometry.numbers(),
            image: &self.image,
            sram: &self.sram,
        };
        schedule(&common, most, &mut self.row, &mut self.store)
    }

    fn total(&self) -> u32 {
        total(&self.geometry)
    }

    fn bank(&self, record: usize, bank: Bank) -> &[u32] {
        let start = self.row.signs[record].starts[bank.number() as usize - 1] as usize;
        &self.store[start..start + self.geometry.bank_words() as usize]
    }

    /// Both banks of a sign, to be written back.
    fn banks(&self, record: usize) -> [Vec<u32>; 2] {
        [Bank::One, Bank::Two].map(|bank| self.bank(record, bank).to_vec())
    }

    /// "unfinished and with a turn that isn't declined".
    fn can_turn(&self, record: u32) -> bool {
        let sign = self.row.sign(record);
        let [mut one, mut two] = self.banks(record as usize);
        let mut banks = Banks {
            one: &mut one,
            two: &mut two,
        };
        let (numbers, device) = (self.geometry.numbers(), sign.device);
        let (image, sram) = (&self.image, &self.sram);
        let turned = turn(numbers, device, &mut banks, image, sram, sign.place);
        turned.is_ok_and(|turned| !turned.done)
    }
}

/// What lists of calls held.
#[derive(Debug, Default)]
struct Counts {
    served: u32,
    idle: u32,
    sets: u32,
    above: u32,
    begin: u32,
    from_queue: u32,
    overtaken: u32,
}

/// "A turn for one sign changes no word or record of another, except who waits and who was last served."
fn check_others(before: &Supply, after: &Supply, served: Option<Served>) {
    let (mut row, mut store) = (before.row.clone(), before.store.clone());
    if let Some(served) = served {
        let record = served.record as usize;
        let sign = &mut row.signs[record];
        (sign.device, sign.place) = (after.row.signs[record].device, sign.place + 1);
        for start in sign.starts.map(|start| start as usize) {
            let own = start..start + before.geometry.bank_words() as usize;
            store[own.clone()].copy_from_slice(&after.store[own]);
        }
        row.last = served.record;
    }
    row.queue.clone_from(&after.row.queue);
    assert_eq!(after.row, row);
    assert!(after.store == store, "a word of another sign");
}

/// "No call raises the number of signs with WR set above K".
fn check_running(before: &Supply, after: &Supply, most: u32) {
    let [was, is] = [before, after].map(|supply| supply.row.running());
    assert!(is <= was || is <= most as usize, "{was} {is} {most}");
}

/// Those that waited keep their order, but for the served one; those that begin to wait follow, in record order.
fn check_queue(before: &Supply, after: &Supply, served: Option<Served>) {
    let served = served.map(|served| served.record);
    let mut kept = before.row.queue.clone();
    kept.retain(|record| Some(*record) != served);
    let (front, begin) = after.row.queue.split_at(kept.len());
    assert_eq!(front, kept);
    assert!(begin.is_sorted_by(|one, two| one < two), "{begin:?}");
    for record in begin {
        let free = !before.row.queue.contains(record) && Some(*record) != served;
        assert!(free && !before.row.sign(*record).device.running());
    }
}

/// For each waiting sign, who set WR since it waits.
struct Waits {
    since: Vec<Vec<u32>>,
}

impl Waits {
    /// "no sign sets WR twice while one and the same other sign, unfinished and with a turn that isn't declined, waits".
    fn check(&mut self, before: &Supply, after: &Supply, served: Served, counts: &mut Counts) {
        let running = |supply: &Supply| supply.row.sign(served.record).device.running();
        let sets = running(after) && !running(before);
        counts.sets += u32::from(sets);
        for record in 0..before.row.signs.len() as u32 {
            let since = &mut self.since[record as usize];
            let waits = |supply: &Supply| supply.row.queue.contains(&record);
            if !waits(before) || !waits(after) || !before.can_turn(record) {
                since.clear();
            } else if sets {
                assert!(!since.contains(&served.record), "{record} {served:?}");
                since.push(served.record);
                counts.overtaken += 1;
            }
        }
    }
}

/// A list of calls, each with its K, on what the one before left.
fn check_calls(supply: &mut Supply, numbers: impl Iterator<Item = u32>, counts: &mut Counts) {
    let mut waits = Waits {
        since: vec![Vec::new(); supply.row.signs.len()],
    };
    for most in numbers {
        let before = supply.clone();
        let served = supply.call(most).expect("an accepted row");
        check_others(&before, supply, served);
        check_running(&before, supply, most);
        check_queue(&before, supply, served);
        counts.above += u32::from(supply.row.running() > most as usize);
        counts.begin += u32::from(supply.row.queue.len() > before.row.queue.len());
        match served {
            None => counts.idle += 1,
            Some(served) => {
                counts.served += 1;
                counts.from_queue += u32::from(before.row.queue.contains(&served.record));
                waits.check(&before, supply, served, counts);
            }
        }
    }
}

/// K of each call: one and the same, or another each time.
fn operations(random: &mut Random, calls: u32) -> Vec<u32> {
    let usual = random.pick(&[1, 1, 1, 2, 2, 3, 32]);
    let changing = random.one_in(4);
    let most = |_| match changing {
        true => random.between(1, 4),
        false => usual,
    };
    (0..calls).map(most).collect()
}

/// Rows from a seed, with queues in any order and records that are passed over.
#[test]
fn calls_of_any_row() {
    let (mut random, mut counts) = (Random::new(31), Counts::default());
    let cases = Cases::of_requests(32, 128).filter(|case| {
        let row = matches!(case.call, Call::Schedule | Call::RowRun);
        row && case.row.signs.len() <= 8
    });
    for case in cases.take(2_000) {
        let Some(mut supply) = Supply::of_case(&case) else {
            continue;
        };
        let calls = random.between(1, 200);
        let numbers = operations(&mut random, calls);
        check_calls(&mut supply, numbers.into_iter(), &mut counts);
    }
    let often = [counts.served, counts.sets, counts.idle, counts.above];
    assert!(often.iter().all(|count| *count > 1_000), "{counts:?}");
    let seldom = [counts.begin, counts.from_queue, counts.overtaken];
    assert!(seldom.iter().all(|count| *count > 300), "{counts:?}");
}

const GEOMETRIES: [[u32; 3]; 4] = [[1, 1, 1], [1, 2, 1], [1, 1, 2], [2, 1, 1]];

/// What an update is to lead to: the old bank is kept, the new one is the image with the quad that follows the start's t.
struct Update {
    old: Bank,
    old_words: Vec<u32>,
    new_words: Vec<u32>,
}

impl Update {
    fn new(start: &Supply, record: usize) -> Update {
        let device = start.row.signs[record].device;
        let old = device.running_bank().expect("both swaps agree");
        let old_words = start.bank(record, old).to_vec();
        let index = start.geometry.sequence_index();
        let mut new_words = start.image.clone();
        let quad = new_quad(low_half(old_words[index]));
        new_words[index..index + 4].copy_from_slice(&quad);
        Update {
            old,
            old_words,
            new_words,
        }
    }

    fn all(start: &Supply) -> Vec<Update> {
        let signs = 0..start.row.signs.len();
        signs.map(|record| Update::new(start, record)).collect()
    }

    /// A reset and a start-up of one sign: it "runs the whole old bank or exactly the new", and on the old one the same update is
    /// accepted again. True for the new.
    fn check_cut(&self, supply: &Supply, record: usize, kind: u32, mask: [u32; 4]) -> bool {
        let (numbers, device) = (supply.geometry.numbers(), supply.row.signs[record].device);
        let [mut one, mut two] = supply.banks(record);
        let mut banks = Banks {
            one: &mut one,
            two: &mut two,
        };
        let cut = reset(numbers, device, &mut banks, &supply.sram, kind, mask);
        let device: Device = start_up(numbers, cut.unwrap().device).unwrap();
        assert_eq!(banks.words(self.old), self.old_words);
        let runs = device.running_bank().expect("both swaps agree");
        if runs == self.old {
            let start = update_start(numbers, &device, &banks, &supply.image);
            assert_eq!(start, Ok((0, supply.total())));
            return false;
        }
        assert_eq!(banks.words(runs), self.new_words);
        true
    }
}

/// As many calls as the totals of all signs finish them, none is idle before, and each one after is.
fn check_whole(random: &mut Random, geometry: Geometry, count: u32) {
    let mut supply = Supply::fresh(random, geometry, count);
    let updates = Update::all(&supply);
    for most in operations(random, count * supply.total()) {
        assert!(supply.call(most).unwrap().is_some(), "an idle call");
    }
    let finished = |sign: &Sign| sign.place == supply.total();
    assert!(supply.row.signs.iter().all(finished));
    let left = supply.clone();
    assert_eq!(supply.call(random.between(1, 32)), Ok(None));
    assert_eq!(supply, left);
    for (record, update) in updates.iter().enumerate() {
        let (kind, mask) = (random.below(3), random.mask());
        assert!(update.check_cut(&supply, record, kind, mask));
    }
}

#[test]
fn as_many_calls_as_the_totals_finish_a_fresh_row() {
    let mut random = Random::new(33);
    let smallest = Geometry::new([1, 1, 1]).unwrap();
    for count in 1..=MOST_SIGNS as u32 {
        check_whole(&mut random, smallest, count);
    }
    for number in 0..60 {
        let geometry = Geometry::new(GEOMETRIES[number % 4]).unwrap();
        let count = random.between(1, 6);
        check_whole(&mut random, geometry, count);
    }
}

/// How many fresh rows.
const ROWS: usize = 120;

/// The promises of each call, over whole updates.
#[test]
fn calls_of_fresh_rows() {
    let (mut random, mut counts) = (Random::new(34), Counts::default());
    for number in 0..ROWS {
        let geometry = Geometry::new(GEOMETRIES[number % 4]).unwrap();
        let count = match number % 40 {
            0 => MOST_SIGNS as u32,
            _ => random.between(1, 6),
        };
        let mut supply = Supply::fresh(&mut random, geometry, count);
        let numbers = operations(&mut random, count * supply.total() + 3);
        check_calls(&mut supply, numbers.into_iter(), &mut counts);
    }
    assert_eq!(counts.idle, 3 * ROWS as u32);
    let often = [counts.begin, counts.from_queue, counts.overtaken];
    assert!(often.iter().all(|count| *count > 500), "{counts:?}");
}

/// Some signs of a row get another device or place, so that they are passed over or do something else; the others are as they were.
fn spoil(random: &mut Random, supply: &mut Supply) -> Vec<bool> {
    let total = supply.total();
    let mut spoiled = Vec::new();
    for sign in &mut supply.row.signs {
        let odd = random.one_in(3);
        spoiled.push(odd);
        match random.below(4) {
            _ if !odd => {}
            0 => sign.place = total + random.below(2),
            1 => sign.place = random.below(total),
            2 => sign.device.key_step = 4,
            _ => sign.device.registers[0] |= 0x8000,
        }
    }
    let count = supply.row.signs.len() as u32;
    supply.row.last = random.below(count);
    supply.row.queue = (0..count).rev().filter(|_| random.one_in(3)).collect();
    spoiled
}

/// "The cut statement is per sign, all reset together": after any list of calls, each sign with a kind and a mask of its own.
#[test]
fn rows_that_are_cut() {
    let mut random = Random::new(35);
    let (mut torn, mut runs) = (0, [0, 0]);
    for number in 0..1_500 {
        let geometry = Geometry::new(GEOMETRIES[number % 4]).unwrap();
        let count = random.between(1, 5);
        let mut supply = Supply::fresh(&mut random, geometry, count);
        let updates = Update::all(&supply);
        let spoiled = match number % 2 {
            0 => vec![false; count as usize],
            _ => spoil(&mut random, &mut supply),
        };
        let most = count * supply.total();
        let calls = match random.below(3) {
            0 => most - random.below(6 * count),
            _ => random.below(most),
        };
        for most in operations(&mut random, calls) {
            supply.call(most).unwrap();
        }
        for (record, update) in updates
            .iter()
            .enumerate()
            .filter(|(record, _)| !spoiled[*record])
        {
            let (kind, mask) = (random.below(3), random.mask());
            torn += u32::from(supply.row.signs[record].device.running());
            let runs_new = update.check_cut(&supply, record, kind, mask);
            runs[usize::from(runs_new)] += 1;
        }
    }
    assert!(
        torn > 300 && runs.iter().all(|count| *count > 300),
        "{torn} {runs:?}"
    );
}
