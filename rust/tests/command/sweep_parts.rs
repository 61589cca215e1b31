//! `yohrundel sweep --part` and `--join`: parts of a sweep, and their lines put together.

use model::random::Random;

use crate::arguments::wrong;
use crate::json::{read, Json};
use crate::run::{finish, spawn, Ran};
use crate::scripts::named;
use crate::sweeps::{line, Sweep};

/// What the parts of a sweep print, in their order.
fn parts(sweep: &str, of: u32) -> Vec<String> {
    let part = |number| line(&format!("{sweep} --json --part {number}/{of}")).printed();
    (1..=of).map(part).collect()
}

/// What the lines of standard input come to.
fn joined(lines: &str, options: &[&str]) -> Ran {
    let arguments = [&["sweep", "--join"], options].concat();
    finish(spawn(&arguments), lines.as_bytes())
}

fn shuffled(mut lines: Vec<String>, random: &mut Random) -> String {
    for last in (1..lines.len()).rev() {
        lines.swap(last, random.below(last as u32 + 1) as usize);
    }
    lines.concat()
}

fn number(line: &str, key: &str) -> u64 {
    let Some(Json::Object(pairs)) = read(line) else {
        panic!("{line}");
    };
    match pairs.iter().find(|(of, _)| of == key) {
        Some((_, Json::Number(number))) => *number,
        other => panic!("{other:?}"),
    }
}

/// In whatever order the parts come, they are the whole, of which the model knows the counts.
#[test]
fn parts_are_the_whole() {
    let mut random = Random::new(81);
    for (sweep, counts) in [
        ("sweep 1 1 1", [1, 2, 3, 7, 300]),
        ("sweep 1 2 1 --kinds 2 --masks 0:FFFFFFFF", [1, 2, 5, 8, 64]),
        ("sweep 1 1 1 --sample 50 --seed 3", [1, 2, 3, 5, 50]),
    ] {
        let (text, json) = (
            line(sweep).printed(),
            line(&format!("{sweep} --json")).printed(),
        );
        for of in counts {
            let lines = parts(sweep, of);
            let places: Vec<u64> = lines.iter().map(|line| number(line, "places")).collect();
            let (least, most) = (places.iter().min(), places.iter().max());
            assert!(most <= least.map(|least| least + 1).as_ref(), "{places:?}");
            let lines = shuffled(lines, &mut random);
            assert_eq!(joined(&lines, &["--json"]).printed(), json);
            assert_eq!(joined(&lines, &[]).printed(), text);
        }
    }
    let whole = line("sweep 1 1 1 --json").printed();
    assert_eq!(read(&whole), Some(Sweep::all([1, 1, 1]).json()));
}

/// A part says which it is, and its line has the sweep's keys.
#[test]
fn text_of_a_part() {
    let text = line("sweep 1 1 1 --part 2/4").printed();
    let text = text.split_whitespace().collect::<Vec<_>>().join(" ");
    let sentence = "This is part 2 of 4 of a sweep: the supply is cut at all 253 places, by 3 \
                    kinds of reset with 6 masks each.";
    assert!(text.contains(sentence), "{text}");
    // 253 places are shared as 63, 63, 63 and 64, and none of the second part leaves the new bank.
    let counts = "places 63 cuts 1134 the old bank ran, whole 1134";
    assert!(text.contains(counts), "{text}");
}

/// Several files, standard input among them, with blank lines and blanks between the tokens.
#[test]
fn lines_from_files() {
    let lines = parts("sweep 1 1 1", 4);
    let first = named("sweep-first", lines[0].as_bytes());
    let spaced = format!("\n{}\r\n\n", lines[2].trim_end().replace(",\"", " ,\t\""));
    let third = named("sweep-third", spaced.as_bytes());
    let input = format!("{}{}", lines[3], lines[1].trim_end());
    let child = spawn(&["sweep", "--join", &first, "-", &third, "--json"]);
    let whole = line("sweep 1 1 1 --json").printed();
    assert_eq!(finish(child, input.as_bytes()).printed(), whole);
}

fn refused(lines: &str, reason: &str) {
    let expected = format!("sweep: {reason}; try yohrundel sweep --help");
    assert_eq!(joined(lines, &[]).reason(2), expected);
}

#[test]
fn parts_that_are_missing_or_there_twice() {
    let lines = parts("sweep 1 1 1", 8);
    let some = |numbers: &[usize]| {
        let lines = numbers.iter().map(|number| lines[number - 1].as_str());
        lines.collect::<String>()
    };
    let missing = |numbers| format!("of 8 parts these are missing: {numbers}");
    refused(&some(&[1, 2, 3, 4, 5, 6, 7]), &missing("8"));
    refused(&some(&[8, 2, 4]), &missing("1,3,5-7"));
    refused(&some(&[1]), &missing("2-8"));
    let twice = "is there twice: line 2 of \"-\" and line 4 of \"-\"";
    refused(&some(&[1, 3, 2, 3]), &format!("part 3 of 8 {twice}"));
    refused(
        &some(&[1, 2, 3, 2, 4, 5, 6, 7, 8]),
        &format!("part 2 of 8 {twice}"),
    );
}

/// Sweeps that differ from the first in one thing, which is named.
const DIFFERENT: [(&str, &str); 9] = [
    (
        "1 1 2 --kinds 0 --masks 0:1 --sample 9 --seed 1 --part 2/2",
        "sizes",
    ),
    (
        "1 2 1 --kinds 0 --masks 0:1 --sample 9 --seed 1 --part 2/2",
        "sizes",
    ),
    (
        "1 1 1 --kinds 0 --masks 0:2 --sample 9 --seed 1 --part 2/2",
        "masks",
    ),
    (
        "1 1 1 --kinds 0 --masks 0 --sample 9 --seed 1 --part 2/2",
        "masks",
    ),
    (
        "1 1 1 --kinds 1 --masks 0:1 --sample 9 --seed 1 --part 2/2",
        "kinds",
    ),
    (
        "1 1 1 --kinds 0 --masks 0:1 --sample 8 --seed 1 --part 2/2",
        "sample and seed",
    ),
    (
        "1 1 1 --kinds 0 --masks 0:1 --sample 9 --seed 2 --part 2/2",
        "sample and seed",
    ),
    ("1 1 1 --kinds 0 --masks 0:1 --part 2/2", "sample and seed"),
    (
        "1 1 1 --kinds 0 --masks 0:1 --sample 9 --seed 1 --part 2/3",
        "parts",
    ),
];

#[test]
fn lines_of_different_sweeps() {
    let part = |options: &str| line(&format!("sweep {options} --json")).printed();
    let first = part("1 1 1 --kinds 0 --masks 0:1 --sample 9 --seed 1 --part 1/2");
    for (options, what) in DIFFERENT {
        let lines = format!("{first}\n{}", part(options));
        let reason = "line 3 of \"-\" is of another sweep than line 1 of \"-\": its";
        refused(&lines, &format!("{reason} {what} differ"));
    }
}

#[test]
fn texts_that_are_no_lines() {
    for empty in ["", "\n", " \n\n"] {
        refused(empty, "there is no line of a sweep");
    }
    let whole = line("sweep 1 1 1 --json").printed();
    for (text, number) in [
        ("places 253\n", 1),
        ("{}\n", 1),
        ("[]", 1),
        (&format!("{whole}{whole}x")[..], 3),
        (&whole[..whole.len() - 2], 1),
        (&whole.replace("\"old\":4512", "\"old\":4511"), 1),
        (&whole.replace("\"q\":1", "\"q\":2"), 1),
        (&format!("{whole}\u{0}"), 2),
    ] {
        let reason = format!("line {number} of \"-\" is no line of yohrundel sweep --json");
        refused(text, &reason);
    }
    let ran = line("sweep --join /no/such/file");
    let reason = "\"/no/such/file\" cannot be read: No such file or directory (os error 2)";
    assert_eq!(ran.reason(3), format!("sweep: {reason}"));
}

/// Parts of other places than the whole has, each of which is a line by itself.
#[test]
fn parts_that_are_not_the_whole() {
    let lines = parts("sweep 1 1 1 --kinds 0 --masks 0", 2);
    let [first, second] = [&lines[0], &lines[1]];
    assert_eq!(
        [first, second].map(|line| number(line, "places")),
        [126, 127]
    );
    let fewer = first.replace(":126", ":125");
    assert_ne!(&fewer, first);
    let reason = "the parts have 252 places together, the sweep 253";
    refused(&format!("{fewer}{second}"), reason);
}

/// A line with a wrong outcome ends a join with its cut and status 1, whatever parts are there.
#[test]
fn wrong_outcomes() {
    let fault = r#"{"place":250,"kind":"other","mask":"FFFFFFFF","ran":"no bank runs"}"#;
    let lines = parts("sweep 1 1 1", 3);
    let wrong = lines[1].replace("\"wrong\":null", &format!("\"wrong\":{fault}"));
    let lines = format!("{}{wrong}", lines[0]);
    let reason = "sweep: a wrong outcome: place 250, other, mask FFFFFFFF: no bank runs";
    assert_eq!(joined(&lines, &[]).reason(1), reason);
    let ran = joined(&lines, &["--json"]);
    assert_eq!(
        (ran.status, ran.err),
        (Some(1), format!("yohrundel: {reason}\n"))
    );
    let printed = String::from_utf8(ran.out).expect("text");
    assert!(
        printed.ends_with(&format!("\"wrong\":{fault}}}\n")),
        "{printed}"
    );
}

#[test]
fn options_beside_join() {
    for (option, value) in [
        ("--masks", "0"),
        ("--kinds", "0"),
        ("--sample", "1"),
        ("--seed", "1"),
        ("--part", "1/1"),
    ] {
        let reason = format!("--join and {option} exclude each other");
        wrong(&format!("sweep --join {option} {value}"), &reason);
    }
}
