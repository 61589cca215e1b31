//! Smallest scripts: cases, and by plays of the archive that a result shows the number and that none of its records can go.

use std::collections::BTreeMap;

use model::cases::{Call, Case};
use model::generate::{directed, Cases, DEFAULT_WORDS};
use yohrundel::*;

use crate::answers::{changes, join};
use crate::inputs::Inputs;
use crate::lent::Lent;
use crate::settings::{cases, seed, Report, Within};

/// What a case hands over.
struct Lends {
    geometry: Geometry,
    device: Device,
    banks: [Vec<u32>; 2],
    sram: Vec<u32>,
    scratch: [Vec<u32>; 2],
    script: Vec<u8>,
    number: u32,
    result: Vec<u8>,
}

/// What the call leaves of it.
struct Left {
    answer: Result<u32, Decline>,
    scratch: [Lent<u32>; 2],
    result: Lent<u8>,
}

impl Lends {
    fn new(inputs: &mut Inputs) -> Lends {
        Lends {
            geometry: inputs.geometry(),
            device: inputs.device(),
            banks: [inputs.list(), inputs.list()],
            sram: inputs.list(),
            scratch: [inputs.list(), inputs.list()],
            script: inputs.bytes(),
            number: inputs.number(),
            result: inputs.bytes(),
        }
    }

    fn call(&self) -> Left {
        let scratch = [0, 1].map(|bank| Lent::new(&self.scratch[bank], 0x5A5A_5A5A));
        let ([mut one, mut two], mut result) = (scratch, Lent::new(&self.result, 0x5A));
        let bench = Bench {
            geometry: self.geometry,
            device: self.device,
            one: &self.banks[0],
            two: &self.banks[1],
            sram: &self.sram,
        };
        let lent = [one.lend(), two.lend()];
        let answer = smallest(bench, lent, &self.script, self.number, result.lend());
        let scratch = [one, two];
        Left {
            answer,
            scratch,
            result,
        }
    }

    /// "n, then n triples" of the scratch banks.
    fn bank_changes(&self, left: &Left) -> Vec<u64> {
        let (first, in_one) = changes(&[1], &self.scratch[0], left.scratch[0].after());
        let (second, in_two) = changes(&[2], &self.scratch[1], left.scratch[1].after());
        [vec![first + second], in_one, in_two].concat()
    }

    /// "0 records X C; or 21 C; or ans".
    fn text(&self, left: &Left) -> String {
        let in_banks = self.bank_changes(left);
        let (count, changed) = changes(&[], &self.result, left.result.after());
        match left.answer {
            Ok(records) => {
                let front = vec![0, records.into(), count];
                join(&[front, changed, in_banks].concat())
            }
            Err(decline) if count > 0 => format!("{}, but the result changed", decline.number()),
            Err(Decline::NotShown) => join(&[vec![21], in_banks].concat()),
            Err(decline) if in_banks == [0] => decline.number().to_string(),
            Err(decline) => format!("{}, but a scratch bank changed", decline.number()),
        }
    }
}

/// The originals, the SRAM and the script must be as they were.
pub fn smallest_case(inputs: &mut Inputs) -> String {
    let lends = Lends::new(inputs);
    let (banks, sram, script) = (
        lends.banks.clone(),
        lends.sram.clone(),
        lends.script.clone(),
    );
    let left = lends.call();
    if (&banks, &sram, &script) != (&lends.banks, &lends.sram, &lends.script) {
        return String::from("what is only read changed");
    }
    let [one, two] = &left.scratch;
    if !one.margin_kept() || !two.margin_kept() || !left.result.margin_kept() {
        return String::from("memory beside the lent changed");
    }
    lends.text(&left)
}

/// The answers of a play, record by record.
fn answers(lends: &Lends, script: &[u8]) -> Vec<u32> {
    let [mut one, mut two] = lends.banks.clone();
    // A line of such a script has at most 16 bytes.
    let mut output = vec![0; 2 * script.len()];
    let (sign, device, sram) = (lends.geometry, lends.device, &lends.sram);
    let played = play(sign, device, &mut one, &mut two, sram, script, &mut output);
    let bytes = played.expect("a script that is played").bytes;
    let text = std::str::from_utf8(&output[..bytes]).expect("lines");
    let answers = text.lines().map(|line| line.split(' ').nth(1));
    answers
        .map(|answer| answer.expect("an answer").parse().expect("a number"))
        .collect()
}

/// "The result shows the number, and without any one of its records it doesn't"; how many records are left of how many.
fn check_promise(lends: &Lends) -> Option<(usize, usize)> {
    let left = lends.call();
    let records = left.answer.ok()? as usize;
    let (result, rest) = left.result.after().split_at(8 * records);
    assert!(
        rest.iter().all(|byte| *byte == 0),
        "bytes behind the result"
    );
    let shows = |script: &[u8]| answers(lends, script).contains(&lends.number);
    assert!(shows(result), "the result does not show the number");
    for index in 0..records {
        let without = [&result[..8 * index], &result[8 * index + 8..]].concat();
        assert!(!shows(&without), "record {index} can go");
    }
    for bank in 0..2 {
        assert!(left.scratch[bank].after() == lends.banks[bank]);
    }
    Some((records, lends.script.len() / 8))
}

/// Random cases and the directed ones; those of each number that were left whole and that were not are counted.
#[test]
fn results_of_random_and_directed_cases() {
    let (seed, count) = (seed(40), cases(100));
    let report = Report::new(format!("smallest scripts, seed {seed}"));
    let random = Cases::of_requests(seed, DEFAULT_WORDS);
    let random = random
        .filter(|case| case.call == Call::Smallest)
        .take(count);
    let directed = directed::request_cases().into_iter().map(|(_, case)| case);
    let directed = directed.filter(|case: &Case| case.call == Call::Smallest);
    let mut seen: BTreeMap<(u32, bool), usize> = BTreeMap::new();
    for case in random.chain(directed) {
        let line = case.inputs();
        let _within = Within(line.clone());
        let mut inputs = Inputs::new(line.strip_prefix("smallest ").expect("its name"));
        let lends = Lends::new(&mut inputs);
        if let Some((left, all)) = check_promise(&lends) {
            *seen.entry((lends.number, left == all)).or_default() += 1;
        }
    }
    assert_eq!(seen.len(), 6, "{seen:?}");
    report.finish(format_args!("{} results", seen.values().sum::<usize>()));
}
