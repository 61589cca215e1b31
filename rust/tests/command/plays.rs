//! `yohrundel play` with options: plays on signs of other sizes, beside the outside model.

use std::fs;

use model::geometry::Bank;
use model::random::Random;
use model::script::{records, Record, BYTE_LIMIT};
use model::sequence::word_of;

use crate::causes::malformed;
use crate::outside::Sign;
use crate::run::{bytes, finish, run, spawn, Ran};
use crate::scripts::{named, random_words, script, written};
use crate::updates::geometry_text;

fn sizes([q, b, p]: [u32; 3]) -> String {
    format!("{q},{b},{p}")
}

fn play(script: &[u8], options: &[&str]) -> Ran {
    finish(spawn(&[&["play", "-"], options].concat()), script)
}

/// What a play prints, with what --restart adds; the sign is left after both.
fn played(sign: &mut Sign, script: &[u8]) -> (String, String) {
    let records = records(script).expect("a script");
    let lines = sign.play(&records);
    let refused = lines
        .lines()
        .filter(|line| line.split(' ').nth(1) != Some("0"));
    let numbers: Vec<&str> = refused.filter_map(|line| line.split(' ').next()).collect();
    let first = match numbers.first() {
        Some(number) => format!(", the first of them record {number}"),
        None => String::new(),
    };
    let (count, refused, runs) = (
        records.len(),
        numbers.len(),
        sign.restart(0, [0; 4]).number(),
    );
    let why = sign.why;
    let said = format!(
        "\nRecords played: {count}, refused: {refused}{first}.\n\
         After a power-on reset and start-up bank {runs} runs:\n{why}.\n"
    );
    (lines, said)
}

/// A script is written and then played: each line is the model's, and the new bank runs at the end.
#[test]
fn scripts_written_and_played() {
    for numbers in [[1, 1, 1], [1, 2, 6], [2, 5, 3], [8, 1, 2], [1, 5, 128]] {
        let update = written(script(&geometry_text(numbers), &[]));
        let mut sign = Sign::fresh(numbers, None);
        let (lines, said) = played(&mut sign, &update);
        assert!(said.contains("refused: 0.") && said.contains("bank 2 runs"));
        assert_eq!(sign.banks, sign.updated());
        let size = sizes(numbers);
        let ran = play(&update, &["--sizes", &size, "--restart"]);
        assert_eq!(ran.printed(), format!("{lines}{said}"));
        assert_eq!(play(&update, &["--sizes", &size]).printed(), lines);
    }
}

/// The script ends early, as where the supply fails: the old bank runs.
#[test]
fn fronts_of_a_script() {
    let numbers = [1, 2, 1];
    let update = written(script(&geometry_text(numbers), &[]));
    for front in (0..=update.len())
        .step_by(8 * 19)
        .chain([update.len() - 16, update.len() - 8])
    {
        let mut sign = Sign::fresh(numbers, None);
        let (lines, said) = played(&mut sign, &update[..front]);
        let new = front >= update.len() - 8;
        assert_eq!(said.contains("bank 2 runs"), new, "{front}");
        let ran = play(&update[..front], &["--restart", "--sizes", "1,2,1"]);
        assert_eq!(ran.printed(), format!("{lines}{said}"));
    }
}

/// Banks from files, of which bank 2 runs; after the play they are in other files.
#[test]
fn banks_from_files_and_to_files() {
    let (numbers, mut random) = ([2, 1, 2], Random::new(41));
    let geometry = model::geometry::Geometry::new(numbers).expect("a sign");
    let words = geometry.bank_words() as usize;
    let mut banks = [1, 2].map(|_| random_words(&mut random, words));
    banks[0][geometry.sequence_index()] = word_of(41);
    banks[1][geometry.sequence_index()] = word_of(42);
    let image = random_words(&mut random, words);
    let [one, two, path] = [("one", &banks[0]), ("two", &banks[1]), ("image", &image)]
        .map(|(name, words)| named(&format!("plays-{name}"), &bytes(words)));
    let banks_given = ["--bank1", &one, "--bank2", &two];
    let update = written(script(
        &geometry_text(numbers),
        &[&[path.as_str()], &banks_given[..]].concat(),
    ));
    let mut sign = Sign::started(numbers, banks, Some(image));
    assert!(update == sign.script().expect("it is accepted"));
    let (lines, said) = played(&mut sign, &update);
    assert!(said.contains("bank 1 runs"));
    let saved = ["one", "two"].map(|name| named(&format!("plays-{name}-after"), b"before"));
    let options = [
        "--sizes",
        "2,1,2",
        "--restart",
        "--save1",
        &saved[0],
        "--save2",
        &saved[1],
    ];
    let ran = play(&update, &[&banks_given[..], &options].concat());
    assert_eq!(ran.printed(), format!("{lines}{said}"));
    for (path, words) in saved.iter().zip(&sign.banks) {
        assert!(fs::read(path).expect("a bank") == bytes(words));
    }
    assert_eq!(sign.banks[0][geometry.sequence_index()], word_of(43));
}

/// Any script, with refused records and resets in it, on signs of several sizes.
#[test]
fn other_scripts_on_other_signs() {
    for seed in 0..40 {
        let numbers = [[1, 1, 1], [2, 1, 1], [1, 2, 3]][seed as usize % 3];
        let other = model::generate::script(300 + seed, false);
        let size = sizes(numbers);
        let ran = play(&other, &["--sizes", &size, "--restart"]);
        if records(&other).is_err() {
            assert_eq!((ran.status, ran.out.as_slice()), (Some(1), &b"14\n"[..]));
            let reason = format!("play: declined by {}", malformed(&other));
            assert_eq!(ran.err, format!("yohrundel: {reason}\n"));
            continue;
        }
        let (lines, said) = played(&mut Sign::fresh(numbers, None), &other);
        assert_eq!(ran.printed(), format!("{lines}{said}"));
    }
}

/// The play program's own sign has the play program's limit, whatever else is asked for; other signs have none.
#[test]
fn longest_scripts() {
    let longer = vec![0; BYTE_LIMIT + 8];
    let reason = "declined by 14: the script is malformed: more than 65536 bytes";
    for options in [&[][..], &["--restart"]] {
        let ran = play(&longer, options);
        assert_eq!((ran.status, ran.out.as_slice()), (Some(1), &b"14\n"[..]));
        assert_eq!(ran.err, format!("yohrundel: play: {reason}\n"));
    }
    let lines = play(&longer, &["--sizes", "1,1,1"]).printed();
    assert_eq!(lines.lines().count(), BYTE_LIMIT / 8 + 1);
}

/// On the play program's sign too; no start-up went before.
#[test]
fn restart_and_banks_of_the_bench() {
    let script = Record::Step.bytes();
    let mut bench = Sign::bench();
    let (lines, said) = played(&mut bench, &script);
    assert_eq!(lines, "0 6 00000000 0\n");
    assert_eq!(bench.restart(0, [0; 4]), Bank::One);
    let path = named("bench-after", b"");
    let ran = play(&script, &["--restart", "--save1", &path]);
    assert_eq!(ran.printed(), format!("{lines}{said}"));
    assert_eq!(fs::read(&path).expect("a bank"), bytes(&bench.banks[0]));
}

/// The largest script, in a file: the new bank is the image.
#[test]
fn largest_script_played() {
    let numbers = [128, 5, 128];
    let [update, one, two] =
        ["bin", "one", "two"].map(|end| named(&format!("largest-play.{end}"), b""));
    run(&["script", "128", "5", "128", "-o", &update]).printed();
    let options = [
        "--sizes",
        "128,5,128",
        "--restart",
        "--save1",
        &one,
        "--save2",
        &two,
    ];
    let printed = run(&[&["play", &update], &options[..]].concat()).printed();
    let said = "\nRecords played: 1907764, refused: 0.\n\
                After a power-on reset and start-up bank 2 runs:\n\
                its sequence number is the higher one.\n";
    assert!(printed.ends_with(said));
    let sign = Sign::fresh(numbers, None);
    assert!(fs::read(one).expect("bank 1") == bytes(sign.old()));
    assert!(fs::read(two).expect("bank 2") == bytes(&sign.new));
}
