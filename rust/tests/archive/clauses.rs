//! The clauses of declines 3 and 10 that the crate names are the model's.

use std::collections::{BTreeMap, BTreeSet};

use model::cases::{Call, Case};
use model::clauses as outside;
use model::device::Device as OutsideDevice;
use model::generate::{directed, Cases, DEFAULT_WORDS};
use model::geometry::{Banks, Geometry as OutsideGeometry};
use yohrundel::culprit::{device_clause, sequence_clause, Culprit};
use yohrundel::register::NVMCON;
use yohrundel::{register_read, Decline, Geometry};

use crate::calls::stored;
use crate::clause_names::*;
use crate::settings::{cases, seed, Report, Within};
use crate::sign::device;

/// The model's clause of decline 3; none where the sizes are declined first.
fn outside_device_clause(numbers: [u32; 3], device: &OutsideDevice) -> Option<Named> {
    let geometry = OutsideGeometry::new(numbers).ok()?;
    outside::device_clause(&geometry, device).map(outside_device_name)
}

/// The model's clause of decline 10 of an update start or a script that is written; none where its sizes or lengths are declined first.
fn outside_sequence_clause(case: &Case) -> Option<Named> {
    let geometry = OutsideGeometry::new(case.geometry).ok()?;
    let [mut one, mut two] = [0, 1].map(|bank| case.lists[bank].words());
    let banks = Banks {
        one: &mut one,
        two: &mut two,
    };
    banks.check(&geometry).ok()?;
    outside::sequence_clause(&geometry, &case.device, &banks).map(outside_sequence_name)
}

/// The geometry and the device of a line that begins with them, as a case that the model knows.
fn front(left: &str) -> Case {
    let words: Vec<&str> = left.split(' ').skip(1).take(3 + 19).collect();
    let line = format!("possible {}", words.join(" "));
    Case::parse(&line).expect("a geometry and a device")
}

/// Fails where the culprit of a line is of another clause of 3 or 10 than the model's.
pub fn compare(left: &str, culprit: &Culprit) {
    let (given, expected) = match culprit {
        Culprit::Device(clause) => {
            let case = front(left);
            let expected = outside_device_clause(case.geometry, &case.device);
            (device_name(*clause), expected)
        }
        Culprit::Sequence(clause) => {
            let case = Case::parse(left).expect("a case that the model knows");
            (sequence_name(*clause), outside_sequence_clause(&case))
        }
        _ => return,
    };
    assert_eq!(Some(given), expected, "{left}");
}

/// How many cases each clause has.
#[derive(Default)]
struct Counts(BTreeMap<(&'static str, u32), usize>);

impl Counts {
    fn add(&mut self, named: &Option<Named>) {
        if let Some((clause, which, _)) = named {
            *self.0.entry((clause, *which)).or_default() += 1;
        }
    }

    /// Both name the same clause, or none; and there is one exactly where a call is declined by 3.
    fn check_device(&mut self, numbers: [u32; 3], record: &OutsideDevice) {
        let ([q, b, p], device) = (numbers, device(record));
        let sign = Geometry { q, b, p };
        let given = device_clause(sign, &device).map(device_name);
        assert_eq!(given, outside_device_clause(numbers, record));
        let declined = register_read(sign, device, NVMCON) == Err(Decline::Device);
        assert_eq!(given.is_some(), declined);
        self.add(&given);
    }

    /// Both name the same clause, or none, whatever else the case is declined for.
    fn check_sequence(&mut self, case: &Case) {
        let [q, b, p] = case.geometry;
        let [one, two] = [0, 1].map(|bank| case.lists[bank].words());
        let device = device(&case.device);
        let given = sequence_clause(Geometry { q, b, p }, &device, &one, &two).map(sequence_name);
        assert_eq!(given, outside_sequence_clause(case));
        self.add(&given);
    }

    fn check(&mut self, case: &Case) {
        let _within = Within(case.inputs());
        let shape = case.call.shape();
        if shape.geometry && shape.device {
            self.check_device(case.geometry, &case.device);
        }
        for sign in &case.row.signs {
            self.check_device(case.geometry, &sign.device);
        }
        if [Call::UpdateStart, Call::WriteScript].contains(&case.call) {
            self.check_sequence(case);
        }
    }
}

/// Generated, directed and stored cases; each clause occurs.
#[test]
fn clauses_of_every_case() {
    let (seed, count) = (seed(50), cases(6));
    let report = Report::new(format!("clauses of declines 3 and 10, seed {seed}"));
    let mut counts = Counts::default();
    let made = Cases::new(seed, DEFAULT_WORDS).take(count);
    let requests = Cases::of_requests(seed, DEFAULT_WORDS).take(count / 10);
    for case in made.chain(requests) {
        counts.check(&case);
    }
    for (_, case) in [directed::cases(), directed::request_cases()].concat() {
        counts.check(&case);
    }
    let stored = stored();
    for case in stored.iter().filter_map(|(left, _)| Case::parse(left)) {
        counts.check(&case);
    }
    let each = CLAUSES.map(|(clause, which)| which.iter().map(move |which| (clause, *which)));
    let each: BTreeSet<(&str, u32)> = each.into_iter().flatten().collect();
    assert_eq!(counts.0.keys().copied().collect::<BTreeSet<_>>(), each);
    let (all, least) = (counts.0.values().sum::<usize>(), counts.0.values().min());
    let (kinds, least) = (each.len(), least.expect("a clause"));
    report.finish(format_args!(
        "{all} clauses of {kinds} kinds, each {least} times or more"
    ));
}

/// Numbers of a device, in the order of a line, with which clauses apply or just do not.
const NUMBERS: [&[u32]; 19] = [
    &[
        0, 0x10, 0x8004, 0x8008, 0x8018, 0x9004, 0x9008, 0xA002, 0xA003, 0xA004, 0xA005, 0xA006,
        0xA007, 0xA008, 0xA014, 0xB004, 0xB007, 0xB008,
    ],
    &[0, 7],
    &[0],
    &[0],
    &[0],
    &[0],
    &[0],
    &[0],
    &[0x8000_0000, 0x80, 0x8100_0001],
    &[0x9FDF, 0x9F9F, 0x9FBF],
    &[0x001F_0000, 0x20],
    &[0, 1, 4],
    &[0, 1, 16],
    &[0, 0x1D00_0000, 0x1D00_0080, 0x1FC0_0000],
    &[0],
    &[0],
    &[0],
    &[0, 5],
    &[0, 6],
];

/// One of all ways to pick each number.
fn picked(mut way: usize) -> Case {
    let mut line = String::from("possible 1 1 1");
    for values in NUMBERS {
        line += &format!(" {}", values[way % values.len()]);
        way /= values.len();
    }
    Case::parse(&line).expect("a geometry and a device")
}

/// Where several clauses of 3 apply, both name the same, the first of the sentence.
#[test]
fn clauses_of_3_together() {
    let ways = NUMBERS.iter().map(|values| values.len()).product();
    let mut counts = Counts::default();
    for way in 0..ways {
        counts.check(&picked(way));
    }
    let named: usize = counts.0.values().sum();
    assert!(0 < named && named < ways);
}

/// The same of 10, with every two of some sequence words under each mapping.
#[test]
fn clauses_of_10_together() {
    let words = [0, 1, !0, 0x0001_0001, 0xFFFE_0001, 0xFFFD_0002, 0x0000_FFFF];
    let mut counts = Counts::default();
    for (one, two) in words.iter().flat_map(|one| words.map(|two| (*one, two))) {
        for nvmcon in [0, 0x40, 0x80, 0xC0] {
            let bank = |word: u32| format!("64 0 1 28 {word}");
            let device = format!("{nvmcon} 0 0 0 0 0 0 0 0 64 0 0 0 0 0 0 0 0 0");
            let (one, two) = (bank(one), bank(two));
            let line = format!("update_start 1 1 1 {device} {one} {two} 64 0 0");
            counts.check(&Case::parse(&line).expect("an update start"));
        }
    }
    let named: usize = counts.0.values().sum();
    assert!(0 < named && named < 4 * words.len() * words.len());
}
