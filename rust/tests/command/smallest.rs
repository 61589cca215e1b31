//! `yohrundel smallest`: the records that it leaves, beside the outside model.

use std::fs;

use model::geometry::Geometry;
use model::random::Random;
use model::script::{records, Record};
use model::sequence::word_of;
use model::Refusal;

use crate::causes;
use crate::outside::Sign;
use crate::play::SCRIPT;
use crate::run::{bytes, finish, run, spawn, Ran};
use crate::scripts::{named, random_words, written};
use crate::texts::text;

fn smallest(script: &[u8], number: u32, options: &[&str]) -> Ran {
    let number = number.to_string();
    finish(
        spawn(&[&["smallest", "-", &number], options].concat()),
        script,
    )
}

/// What is printed: the records as text, each with where it stands in the script.
fn expected(script: &[Record], left: &[Record], number: u32) -> String {
    let all = script.len();
    let front = match left.len() {
        1 if all == 1 => format!("# 1 of 1 record is left. Its play gives {number}.\n"),
        1 => format!("# 1 of {all} records is left. Its play gives {number}.\n"),
        count => format!(
            "# {count} of {all} records are left. \
             Their play gives {number}; without any one it does not.\n"
        ),
    };
    let lines = text(left);
    let width = lines.lines().map(str::len).max().unwrap_or(0);
    let places = last_places(script, left);
    let lines = lines.lines().zip(places);
    let lines = lines.map(|(line, place)| format!("{line:width$}  # record {place}\n"));
    front + &lines.collect::<String>()
}

/// The last places in the script that have the records, found one by one from the end.
fn last_places(script: &[Record], left: &[Record]) -> Vec<usize> {
    let (mut places, mut end) = (Vec::new(), script.len());
    for record in left.iter().rev() {
        let place = script[..end].iter().rposition(|other| other == record);
        end = place.expect("a record of the script");
        places.insert(0, end);
    }
    places
}

/// Compares what is printed, and that the text makes the script that the option -o writes.
fn check(sign: &Sign, script: &[u8], number: u32, options: &[&str]) -> Option<usize> {
    let ran = smallest(script, number, options);
    let left = match sign.smallest(script, number) {
        Ok(left) => left,
        Err(refusal) => {
            let reason = causes::smallest(sign, script, number, refusal);
            assert_eq!(ran.reason(1), format!("smallest: declined by {reason}"));
            return None;
        }
    };
    let printed = ran.printed();
    let [all, rest] = [script, &left].map(|bytes| records(bytes).expect("a script"));
    assert_eq!(printed, expected(&all, &rest, number));
    let made = finish(spawn(&["script", "--make", "-"]), printed.as_bytes());
    assert!(written(made) == left);
    Some(rest.len())
}

/// The paper's worked example, of which the last step is refused.
#[test]
fn worked_example() {
    let expected = "# 1 of 9 records is left. Its play gives 6.\nstep  # record 8\n";
    assert_eq!(smallest(SCRIPT, 6, &[]).printed(), expected);
    let step = &SCRIPT[64..];
    let expected = "# 1 of 1 record is left. Its play gives 6.\nstep  # record 0\n";
    assert_eq!(smallest(step, 6, &[]).printed(), expected);
    let stored = [&SCRIPT[..56], &Record::Reset { kind: 2 }.bytes(), SCRIPT].concat();
    assert_eq!(check(&Sign::bench(), &stored, 6, &[]), Some(1));
}

/// A store while the example's program runs: its seven stores are needed.
#[test]
fn several_records_are_left() {
    let zeros = [0; 8];
    let script = [&zeros, &SCRIPT[..56], &zeros, &SCRIPT[56..]].concat();
    let printed = smallest(&script, 5, &[]).printed();
    let lines = "\
# 8 of 11 records are left. Their play gives 5; without any one it does not.
store NVMADDR plain 0x1D000080  # record 1
store NVMCON plain 0x00000002   # record 2
store NVMCON set 0x00004000     # record 3
store NVMKEY plain 0x00000000   # record 4
store NVMKEY plain 0xAA996655   # record 5
store NVMKEY plain 0x556699AA   # record 6
store NVMCON set 0x00008000     # record 7
store NVMCON plain 0x00000000   # record 8
";
    assert_eq!(printed, lines);
    assert_eq!(check(&Sign::bench(), &script, 5, &[]), Some(8));
}

/// Any scripts, on the bench and on signs of several sizes; each number is shown and not shown.
#[test]
fn random_scripts() {
    let mut seen = [0; 3];
    for seed in 0..120 {
        let mut script = model::generate::script(500 + seed, false);
        script.truncate(8 * 64);
        let sizes = ["", "1,1,1", "2,1,1", "1,2,3"][seed as usize % 4];
        let numbers: Vec<u32> = sizes
            .split(',')
            .filter_map(|part| part.parse().ok())
            .collect();
        let (sign, options) = match numbers[..] {
            [q, b, p] => (Sign::fresh([q, b, p], None), vec!["--sizes", sizes]),
            _ => (Sign::bench(), vec![]),
        };
        for (count, number) in seen.iter_mut().zip(4..) {
            *count += u32::from(check(&sign, &script, number, &options).is_some());
        }
    }
    assert!(
        seen.iter().all(|count| (3..110).contains(count)),
        "{seen:?}"
    );
}

/// Banks from files, of which bank 2 runs: a reset finds it, and the words of a page are programmed where they are blank alone.
#[test]
fn banks_from_files() {
    let (numbers, mut random) = ([2, 1, 2], Random::new(51));
    let geometry = Geometry::new(numbers).expect("a sign");
    let words = geometry.bank_words() as usize;
    let mut banks = [1, 2].map(|_| random_words(&mut random, words));
    banks[0][geometry.sequence_index()] = word_of(41);
    banks[1][geometry.sequence_index()] = word_of(42);
    let [one, two] = [0, 1].map(|bank| named(&format!("smallest-{bank}"), &bytes(&banks[bank])));
    let options = ["--bank1", &one, "--bank2", &two, "--sizes", "2,1,2"];
    let sign = Sign::started(numbers, banks, None);
    for script in [SCRIPT, &SCRIPT[..64]] {
        for number in [4, 5, 6] {
            check(&sign, script, number, &options);
        }
    }
    assert_eq!(check(&sign, SCRIPT, 6, &options), Some(1));
    for (path, bank) in [one, two].iter().zip(&sign.banks) {
        assert!(fs::read(path).expect("a bank") == bytes(bank));
    }
}

/// To a file as a script, with the text printed; to standard output as bytes.
#[test]
fn results_in_files() {
    let path = named("smallest-result", b"before");
    let text = smallest(SCRIPT, 6, &[]).printed();
    assert_eq!(smallest(SCRIPT, 6, &["-o", &path]).printed(), text);
    assert_eq!(fs::read(&path).expect("a script"), Record::Step.bytes());
    let ran = smallest(SCRIPT, 6, &["-o", "-"]);
    assert_eq!(written(ran), Record::Step.bytes());
    let kept = named("smallest-kept", b"kept");
    smallest(SCRIPT, 7, &["-o", &kept]).reason(1);
    assert_eq!(fs::read(&kept).expect("a file"), b"kept");
}

/// Each decline of the call with its sentence and its cause.
#[test]
fn declined_scripts() {
    let step = Record::Step.bytes();
    let sentence = |script: &[u8], number, expected: &str| {
        let reason = smallest(script, number, &[]).reason(1);
        assert_eq!(reason, format!("smallest: declined by {expected}"));
    };
    let malformed = "14: the script is malformed: ";
    let short = format!("{malformed}7 bytes are no multiple of 8");
    sentence(&step[..7], 6, &short);
    let bad = [&step[..], &[3; 8], &step.repeat(70)].concat();
    let kind = format!("{malformed}record 1 has the kind 3, not 0 to 2");
    sentence(&bad, 0, &kind);
    let many = "20: the script has more than 64 records: it has ";
    sentence(&step.repeat(65), 6, &format!("{many}65 records"));
    sentence(&step.repeat(10_000), 0, &format!("{many}10000 records"));
    assert_eq!(smallest(&step.repeat(64), 6, &[]).status, Some(0));
    let never = "21: the play never gives the number: the number is ";
    for number in [1, 4, 5, 7, 14, 21, u32::MAX] {
        let given = format!("{never}{number}, and the play gives 6");
        sentence(&step, number, &given);
    }
    let zero = format!("{never}0, which counts as never given");
    sentence(&[0; 8], 0, &zero);
    let empty = format!("{never}6, and the script has no record");
    sentence(b"", 6, &empty);
    assert_eq!(Sign::bench().smallest(b"", 6), Err(Refusal::NotShown));
}

/// The largest sign.
#[test]
fn largest_sign() {
    let script = named("smallest-largest", SCRIPT);
    let printed = run(&["smallest", &script, "6", "--sizes", "128,5,128"]).printed();
    let expected = "# 1 of 9 records is left. Its play gives 6.\nstep  # record 8\n";
    assert_eq!(printed, expected);
}
