//! `yohrundel script`: the bytes that it writes, beside the outside model.

use std::fs;

use model::random::Random;
use model::sequence::word_of;

use crate::causes;
use crate::outside::Sign;
use crate::run::{bytes, file, finish, run, spawn, Ran};
use crate::updates::geometry_text;

const SIGNS: [[u32; 3]; 6] = [
    [1, 1, 1],
    [1, 5, 3],
    [2, 2, 6],
    [8, 1, 2],
    [1, 5, 128],
    [128, 1, 1],
];

/// The command with the arguments in a text, and some more.
pub fn script(text: &str, more: &[&str]) -> Ran {
    let words = ["script"].into_iter().chain(text.split(' '));
    run(&words.chain(more.iter().copied()).collect::<Vec<_>>())
}

/// What a run without failure wrote.
pub fn written(ran: Ran) -> Vec<u8> {
    assert_eq!((ran.status, ran.err.as_str()), (Some(0), ""));
    ran.out
}

/// A file by its name.
pub fn named(name: &str, contents: &[u8]) -> String {
    let path = file(name, contents);
    path.to_str().expect("a name in UTF-8").into()
}

pub fn random_words(random: &mut Random, count: usize) -> Vec<u32> {
    (0..count).map(|_| random.word()).collect()
}

/// Without an image, with one in a file, and with one from standard input.
#[test]
fn scripts_of_fresh_signs() {
    let mut random = Random::new(31);
    for (number, numbers) in SIGNS.into_iter().enumerate() {
        let sign = geometry_text(numbers);
        let made_up = Sign::fresh(numbers, None);
        let expected = made_up.script().expect("it is accepted");
        assert!(written(script(&sign, &[])) == expected, "{sign}");
        let image = random_words(&mut random, made_up.image.len());
        let path = named(&format!("script-image-{number}"), &bytes(&image));
        let child = spawn(&format!("script {sign} -").split(' ').collect::<Vec<_>>());
        let piped = finish(child, &bytes(&image));
        let expected = Sign::fresh(numbers, Some(image)).script();
        let expected = expected.expect("it is accepted");
        assert!(written(piped) == expected, "{sign}");
        assert!(written(script(&sign, &[&path])) == expected, "{sign}");
    }
}

/// Banks with sequence words that an update accepts or not; the old bank is bank 1 or bank 2.
#[test]
fn scripts_of_banks_in_files() {
    let mut random = Random::new(32);
    let (mut accepted, mut declined) = ([0; 2], Vec::new());
    for number in 0..80 {
        let numbers = [[1, 1, 1], [1, 2, 1], [2, 1, 2]][number % 3];
        let geometry = model::geometry::Geometry::new(numbers).expect("a sign");
        let words = geometry.bank_words() as usize;
        let mut banks = [1, 2].map(|_| random_words(&mut random, words));
        for bank in &mut banks {
            let low = random.pick(&[1, 2, 3, 65_533, 65_534, 65_535]);
            bank[geometry.sequence_index()] = random.pick(&[word_of(low), word_of(low), !0, 0]);
        }
        let image = random_words(&mut random, words);
        let paths = [&banks[0], &banks[1], &image].map(|words| bytes(words));
        let [one, two, path] =
            [0, 1, 2].map(|file| named(&format!("script-{number}-{file}"), &paths[file]));
        let options = [path.as_str(), "--bank2", &two, "--bank1", &one];
        let ran = script(&geometry_text(numbers), &options);
        let sign = Sign::started(numbers, banks, Some(image));
        match sign.script() {
            Ok(expected) => {
                assert!(written(ran) == expected, "{number}");
                accepted[usize::from(sign.device.registers[0] & 0x40 != 0)] += 1;
            }
            Err(refusal) => {
                let reason = causes::started(&sign, refusal);
                assert_eq!(ran.reason(1), format!("script: declined by {reason}"));
                declined.push(refusal.number());
            }
        }
    }
    declined.sort_unstable();
    declined.dedup();
    assert_eq!(declined, [10, 11]);
    assert!(accepted.iter().all(|count| *count > 5), "{accepted:?}");
}

/// -o before or after the rest; what it says is on standard output, which is free then.
#[test]
fn script_in_a_file() {
    let path = named("script-out", b"longer than nothing");
    let expected = Sign::fresh([1, 2, 6], None).script();
    let expected = expected.expect("it is accepted");
    let said = "The script has 972 records in 7776 bytes.\n\
                It serves signs of these sizes that run with the sequence number 2 and accept\n\
                the update.\n";
    for arguments in [
        ["script", "1", "2", "6", "-o", &path],
        ["script", "-o", &path, "1", "2", "6"],
    ] {
        fs::write(&path, b"longer than nothing").expect("a file");
        assert_eq!(run(&arguments).printed(), said);
        assert!(fs::read(&path).expect("the script") == expected);
    }
    assert!(written(script("1 2 6", &["-o", "-"])) == expected);
}

/// The sequence number of the bank that runs, which is bank 2 here.
#[test]
fn sequence_number_that_a_script_is_for() {
    let (mut one, mut two) = (vec![!0; 64], vec![0; 64]);
    one[28] = word_of(300);
    two[28] = word_of(301);
    let [one, two] = [("one", one), ("two", two)]
        .map(|(name, words)| named(&format!("script-number-{name}"), &bytes(&words)));
    let path = named("script-number", b"");
    let options = ["--bank1", &one, "--bank2", &two, "-o", &path];
    let said = script("1 1 1", &options).printed();
    assert!(said.contains(" sequence number 301 "), "{said}");
}

/// A start that is declined writes no file.
#[test]
fn no_file_of_a_declined_start() {
    let blank = named("script-blank", &bytes(&[!0; 64]));
    let path = named("script-declined", b"kept");
    let options = ["--bank1", &blank, "--bank2", &blank, "-o", &path];
    let reason = "10: the sequence words or the mapping do not allow an update";
    let cause = "bank 1, on the lower alias, has no valid sequence word: 0xFFFFFFFF";
    assert_eq!(
        script("1 1 1", &options).reason(1),
        format!("script: declined by {reason}: {cause}")
    );
    assert_eq!(fs::read(&path).expect("a file"), b"kept");
}
