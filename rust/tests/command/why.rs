//! `yohrundel why`: each decline with the words of the header.

use std::collections::BTreeMap;

use yohrundel::Decline;

use crate::arguments::wrong;
use crate::run::run;

const HEADER: &str = include_str!("../../../include/yohrundel.h");

/// The comment before each decline of the header, by its number.
fn comments() -> BTreeMap<u32, String> {
    let lines = HEADER
        .lines()
        .skip_while(|line| *line != "enum yohrundel_decline {");
    let (mut comments, mut comment) = (BTreeMap::new(), String::new());
    for line in lines.skip(1).take_while(|line| *line != "};") {
        match line.split_once(" = ") {
            Some((name, number)) if name.trim().starts_with("YOHRUNDEL_") => {
                let number = number.trim_end_matches(',').parse().expect("a number");
                comments.insert(number, std::mem::take(&mut comment));
            }
            _ => {
                let words = line.replace("/*", " ").replace("*/", " ");
                comment += &words.trim().trim_start_matches('*').replace('×', " x ");
                comment += " ";
            }
        }
    }
    comments
}

fn words(text: &str) -> String {
    text.split_whitespace().collect::<Vec<_>>().join(" ")
}

/// The sentence of the library, when it is given as the header says, and what to do in one to three sentences.
#[test]
fn each_decline() {
    let comments = comments();
    assert_eq!(comments.len(), 1 + Decline::ALL.len());
    for decline in Decline::ALL {
        let number = decline.number();
        let text = run(&["why", &number.to_string()]).printed();
        assert!(text.lines().all(|line| line.len() <= 80), "{text}");
        let when = words(&comments[&number]);
        let front = format!("{number}: {}. {when} What to do: ", decline.sentence());
        let text = words(&text);
        let remedy = text
            .strip_prefix(&front)
            .unwrap_or_else(|| panic!("{front}\n{text}"));
        let sentences = remedy.matches(". ").count() + 1;
        assert!((1..=3).contains(&sentences), "{remedy}");
        assert!(remedy.ends_with('.'), "{remedy}");
    }
}

/// The ranges of the papers, which a user needs to mend what is declined.
#[test]
fn ranges() {
    for (number, range) in [
        (
            "1",
            "Q is 1, 2, 4, 8, 16, 32, 64 or 128, B is 1 to 5 and P is 1 to 128",
        ),
        (
            "7",
            "0 for power-on, 1 for brown-out or 2 for any other reset",
        ),
        ("8", "0x1FC00000"),
        ("8", "0x1FC20000"),
        ("8", "0x1D000000"),
        ("15", "from 0 to 10079"),
        ("15", "from 1 to 1440"),
        ("15", "1 to 14 windows of 1 to 10080 minutes"),
        ("18", "34 x (B + P) bytes"),
        ("19", "1 to 32 signs, a K from 1 to 32"),
        ("20", "at most 64 records"),
    ] {
        let text = words(&run(&["why", number]).printed());
        assert!(text.contains(range), "{range}\n{text}");
    }
}

/// A line for each number, with the sentence of the library.
#[test]
fn all_declines() {
    let line = |decline: Decline| format!("{:>2}  {}\n", decline.number(), decline.sentence());
    let lines: String = Decline::ALL.iter().copied().map(line).collect();
    assert_eq!(run(&["why"]).printed(), lines);
    assert_eq!(Decline::ALL.len(), 22);
}

#[test]
fn number_0_is_no_decline() {
    let expected = "0 is no decline: the work is done.\n";
    assert_eq!(run(&["why", "0"]).printed(), expected);
}

#[test]
fn numbers_that_are_not_understood() {
    for number in ["23", "4294967296", "x", "", "1.0"] {
        let reason = format!("NUMBER is {number:?}, not a number from 0 to 22");
        wrong(&format!("why {number}"), &reason);
    }
    wrong("why -1", "there is no option \"-1\"");
    wrong("why 1 2", "\"2\" is one argument too many");
}
