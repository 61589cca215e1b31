//! Generated cases and scripts.

use std::collections::{BTreeMap, BTreeSet};

use model::cases::{answer_line, Call, Case, SHAPES};
use model::device::{possible, Device, Operands, BFSWAP, WRERR};
use model::generate::{line, request_lines, script, Cases, MOST_WORDS};
use model::geometry::Geometry;
use model::reach::{reach, Reach};
use model::script::{play, records};
use model::write_script::script_bytes;

/// The declines of each call.
fn declines(call: Call) -> &'static [u32] {
    match call {
        Call::Compare | Call::CompareReason => &[],
        Call::Possible | Call::Protected | Call::ValidBySum => &[],
        Call::Walk | Call::Run | Call::RowRun => &[],
        Call::Store => &[1, 3, 4, 5],
        Call::RegisterRead => &[1, 3, 4],
        Call::FlashRead => &[1, 2, 3, 8],
        Call::LowerBank => &[1, 2, 3],
        Call::Page => &[1, 2, 8],
        Call::Step => &[1, 2, 3, 6],
        Call::Reset => &[1, 2, 3, 7],
        Call::StartUp => &[1, 3, 5],
        Call::UpdateStart => &[1, 2, 3, 5, 10, 11, 12],
        Call::Turn => &[1, 2, 3, 5, 6, 13],
        Call::Plan => &[15, 16],
        Call::PageSheet => &[1, 2, 3, 18],
        Call::LanesOut | Call::LanesBack => &[22],
        Call::WriteScript => &[1, 2, 3, 5, 10, 11, 12, 17],
        Call::Reach => &[1, 2],
        Call::Smallest => &[1, 2, 3, 14, 20, 21],
        Call::Schedule => &[1, 2, 19],
    }
}

fn first_number(answer: &str) -> u32 {
    answer.split(' ').next().unwrap().parse().unwrap()
}

fn come_back(cases: impl Iterator<Item = Case>) {
    for case in cases {
        let line = line(&case).expect("a case of a known call");
        let (_, answer) = line.split_once(" | ").unwrap();
        assert_eq!(Case::parse(&line).as_ref(), Some(&case));
        assert_eq!(answer_line(&line), answer);
    }
}

#[test]
fn generated_cases_come_back() {
    for (seed, most, count) in [
        (1, 512, 4000),
        (2, 64, 500),
        (3, 4096, 300),
        (4, MOST_WORDS, 60),
    ] {
        come_back(Cases::new(seed, most).take(count));
    }
}

#[test]
fn generated_requests_come_back() {
    for (seed, most, count) in [(1, 512, 2000), (2, 64, 300), (3, 4096, 100)] {
        come_back(Cases::of_requests(seed, most).take(count));
    }
}

/// Stored inputs were made from seeds.
#[test]
fn a_seed_keeps_its_lines() {
    let mut sum: u64 = 0;
    for case in Cases::new(1, 512).take(1000) {
        for byte in case.inputs().bytes() {
            sum = (1_000_003 * sum + u64::from(byte)) % 4_294_967_311;
        }
    }
    assert_eq!(sum, 416_249_257);
}

/// What the images of an accepted case of a reach are.
fn images_class(case: &Case) -> &'static str {
    let [image, other] = [0, 1].map(|list| case.lists[list].words());
    match reach(case.geometry, &image, &other).unwrap() {
        Reach::Action { .. } => "a word apart",
        Reach::NoAction => "a word of the sequence quad apart",
        Reach::Words { count: 0, .. } => "equal",
        Reach::Words { .. } => "several words apart",
    }
}

/// The bank that runs before tries, and after them.
fn tries_class(case: &Case) -> String {
    let answer = case.answer().unwrap();
    let (_, after) = answer.rsplit_once(' ').unwrap();
    format!("of {:?} that end with {after}", case.device.running_bank())
}

/// Whether a script that shows its number is left as it was, and the number.
fn smallest_class(case: &Case) -> String {
    let answer = case.answer().unwrap();
    let records: usize = answer.split(' ').nth(1).unwrap().parse().unwrap();
    let whole = 8 * records == case.lists[5].length;
    format!("of {} left whole {whole}", case.numbers[0])
}

/// Where an accepted call found the sign that it served, if any, and whether others began to wait.
fn schedule_class(case: &Case) -> String {
    let answer = case.answer().unwrap();
    let numbers: Vec<u32> = answer
        .split(' ')
        .map(|part| part.parse().unwrap())
        .collect();
    let (idle, served, waiting) = (numbers[1] == 1, numbers[2], numbers[4] as usize);
    let queue = &case.row.queue;
    match idle {
        false if queue.contains(&served) => String::from("from the queue"),
        _ => format!("idle {idle} begin {}", waiting > queue.len()),
    }
}

/// Whether a list of calls begins as a row that nobody served.
fn fresh(case: &Case) -> bool {
    let row = &case.row;
    let places = row.signs.iter().all(|sign| sign.place == 0);
    places && row.queue.is_empty() && row.last as usize + 1 == row.signs.len()
}

/// Sheets of every Q, under all four mappings, of idle and running devices; plans of few and many windows; scripts for both old
/// banks into buffers of their length and longer; images that are equal, one word apart, outside and in the sequence quad, and several;
/// tries of both old banks that end with the old and with the new; scripts that show each number, left whole and not; calls of a row
/// that serve a waiting sign, another and none, where signs begin to wait and where none does, and lists of calls of fresh rows and others.
#[test]
fn requests_vary() {
    let mut seen = BTreeSet::new();
    for case in Cases::of_requests(1, 512).take(6000) {
        let accepted = first_number(&case.answer().unwrap()) == 0;
        match case.call {
            Call::PageSheet if accepted => {
                let device = case.device;
                seen.insert(format!("Q {}", case.geometry[0]));
                seen.insert(format!("mapping {}", device.registers[0] & 0xC0));
                seen.insert(format!("running {}", device.running()));
            }
            Call::WriteScript if accepted => {
                let geometry = Geometry::new(case.geometry).unwrap();
                let longer = case.lists[3].length > script_bytes(&geometry) as usize;
                seen.insert(format!("script {} {longer}", case.device.con(BFSWAP)));
            }
            Call::Reach if accepted => {
                seen.insert(format!("images {}", images_class(&case)));
            }
            Call::Run if accepted => {
                seen.insert(format!("tries {}", tries_class(&case)));
            }
            Call::Smallest if accepted => {
                seen.insert(format!("smallest {}", smallest_class(&case)));
            }
            Call::Schedule if accepted => {
                seen.insert(format!("schedule {}", schedule_class(&case)));
            }
            Call::RowRun if accepted => {
                seen.insert(format!("calls fresh {}", fresh(&case)));
            }
            Call::Plan => {
                seen.insert(format!("windows {}", case.numbers[2].min(15)));
            }
            _ => {}
        }
    }
    assert_eq!(
        seen.len(),
        8 + 4 + 2 + 16 + 4 + 4 + 4 + 6 + 5 + 2,
        "{seen:?}"
    );
}

/// Running devices that were and were not loaded since their launch; impossible ones by what was launched alone.
#[test]
fn launched_operands_vary() {
    let mut seen: BTreeMap<String, u32> = BTreeMap::new();
    for case in Cases::new(1, 512).take(8000) {
        let Ok(geometry) = Geometry::new(case.geometry) else {
            continue;
        };
        let device = case.device;
        let registers = Device {
            launched: device.loaded(),
            ..device
        };
        let none = Device {
            launched: Operands::NONE,
            ..device
        };
        let other = if device.running() { registers } else { none };
        let class = format!(
            "running {}, possible {}, otherwise {}, equal {}",
            device.running(),
            possible(&geometry, &device),
            possible(&geometry, &other),
            device == other
        );
        *seen.entry(class).or_default() += 1;
    }
    for class in [
        "running true, possible true, otherwise true, equal true",
        "running true, possible true, otherwise true, equal false",
        "running true, possible true, otherwise false, equal false",
        "running true, possible false, otherwise true, equal false",
        "running false, possible false, otherwise true, equal false",
    ] {
        assert!(seen[class] > 20, "{seen:?}");
    }
}

/// Reads that wait for each NVMOP, programs that end and that abort among them, and reads that need not wait.
#[test]
fn reads_vary() {
    let mut seen: BTreeMap<String, u32> = BTreeMap::new();
    for case in Cases::new(1, 512).take(16_000) {
        let answer = case.answer().unwrap();
        if case.call != Call::FlashRead || first_number(&answer) != 0 {
            continue;
        }
        let numbers: Vec<u32> = answer
            .split(' ')
            .map(|part| part.parse().unwrap())
            .collect();
        let aborted = numbers[3] & WRERR != 0;
        let class = match (case.device.running(), numbers[2]) {
            (false, _) => String::from("rest"),
            (true, 0) => String::from("other bank"),
            _ => format!("{} {aborted}", case.device.nvmop()),
        };
        *seen.entry(class).or_default() += 1;
    }
    for class in [
        "rest",
        "other bank",
        "2 true",
        "2 false",
        "3 true",
        "3 false",
        "4 false",
        "5 false",
        "6 false",
        "7 false",
    ] {
        assert!(seen[class] > 10, "{seen:?}");
    }
}

#[test]
fn request_lines_are_those_of_the_cases() {
    let cases = Cases::of_requests(5, 512).take(50);
    assert!(cases
        .map(|case| line(&case).unwrap())
        .eq(request_lines(5, 512).take(50)));
}

#[test]
fn every_decline_occurs() {
    let mut seen: BTreeMap<&str, BTreeSet<u32>> = BTreeMap::new();
    let requests = Cases::of_requests(1, 512).take(2000);
    for case in Cases::new(1, 512).take(8000).chain(requests) {
        let answer = case.answer().unwrap();
        seen.entry(case.call.shape().name)
            .or_default()
            .insert(first_number(&answer));
    }
    // A list of calls has no answer of its own.
    let answered = SHAPES.iter().filter(|shape| !shape.call.is_list());
    for shape in answered {
        let numbers = &seen[shape.name];
        let mut expected: BTreeSet<u32> = declines(shape.call).iter().copied().collect();
        match shape.call {
            Call::Compare | Call::CompareReason => expected.extend([1, 2]),
            Call::Possible | Call::Protected | Call::ValidBySum => expected.extend([0, 1]),
            _ => expected.extend([0]),
        }
        assert_eq!(*numbers, expected, "{}", shape.name);
    }
}

#[test]
fn generated_scripts() {
    let mut refused = 0;
    for seed in 0..200 {
        let printed = play(&script(seed, false));
        refused += u32::from(printed == "14\n");
        let damaged = script(seed, true);
        assert!(records(&damaged).is_err(), "seed {seed}");
        assert_eq!(play(&damaged), "14\n");
    }
    assert!((5..60).contains(&refused));
}
