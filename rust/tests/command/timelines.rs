//! `yohrundel places` without a place: the timeline of an update, beside the outside model.

use crate::json::Json;
use crate::objects::{documented, object, printed};
use crate::outside_blocks::{Actions, Block, PROLOGUE};
use crate::run::run;

/// A part of an update: its name, its first and last place, how many blocks it has, and whether these erase.
struct Part {
    name: &'static str,
    first: u32,
    last: u32,
    blocks: u32,
    erases: bool,
}

/// The parts after the prologue, from block to block.
fn parts(actions: &Actions) -> Vec<Part> {
    let mut parts: Vec<Part> = Vec::new();
    let mut place = PROLOGUE;
    while let Some(block) = actions.block(place) {
        place = block.last + 1;
        let name = actions.part(&block);
        match parts.last_mut() {
            Some(part) if part.name == name => {
                (part.last, part.blocks) = (block.last, part.blocks + 1);
            }
            _ => parts.push(Part::of(name, &block)),
        }
    }
    parts
}

impl Part {
    fn of(name: &'static str, block: &Block) -> Part {
        Part {
            name,
            first: block.first,
            last: block.last,
            blocks: 1,
            erases: block.erases(),
        }
    }

    fn words(&self) -> String {
        let (first, last, blocks) = (self.first, self.last, self.blocks);
        let noun = if self.erases { "page" } else { "quad" };
        let s = if blocks == 1 { "" } else { "s" };
        let actions = last - first + 1;
        format!(
            "{} {first} to {last} {blocks} {noun}{s} {actions}",
            self.name
        )
    }

    fn json(&self) -> Json {
        let count = |wanted: bool| (self.erases == wanted).then_some(self.blocks);
        object([
            ("part", self.name.into()),
            ("first", self.first.into()),
            ("last", self.last.into()),
            ("actions", (self.last - self.first + 1).into()),
            ("pages", count(true).into()),
            ("quads", count(false).into()),
        ])
    }
}

/// The words of a text with one blank between them, line by line.
fn lines_of_words(text: &str) -> Vec<String> {
    let words = |line: &str| line.split_whitespace().collect::<Vec<_>>().join(" ");
    text.lines().map(words).collect()
}

const SIGNS: [[u32; 3]; 6] = [
    [1, 1, 1],
    [1, 2, 6],
    [2, 3, 1],
    [4, 1, 9],
    [16, 5, 128],
    [128, 5, 128],
];

/// A screenful, with every part of the model's list of actions in its order.
#[test]
fn timelines_as_text() {
    for numbers in SIGNS {
        let (actions, [q, b, p]) = (Actions::new(numbers), numbers);
        let text = run(&["places", &q.to_string(), &b.to_string(), &p.to_string()]).printed();
        assert!(text.lines().count() <= 24, "{text}");
        assert!(text.lines().all(|line| line.len() <= 80), "{text}");
        assert!(text.lines().all(|line| line == line.trim_end()), "{text}");
        let total = actions.total();
        let (before, step, after) = (total - 3, total - 2, total - 1);
        let mut expected = vec![
            format!("The update has {total} actions."),
            String::new(),
            String::from("part places actions"),
            String::from("prologue 0 to 11 12"),
        ];
        expected.extend(parts(&actions).iter().map(Part::words));
        // The last step is the action before the last, so that it stands two places before the total.
        expected.extend([
            String::new(),
            String::from("Where the supply fails, the sign runs after a reset and start-up"),
            format!("at places 0 to {before}: the old bank, whole;"),
            format!("at place {step}, the last step: the old bank, whole, or exactly the new one;"),
            format!("at places {after} to {total}: exactly the new bank."),
            String::from("Where it runs the old bank the update is accepted again."),
        ]);
        assert_eq!(lines_of_words(&text), expected);
    }
}

#[test]
fn timelines_as_objects() {
    let prologue = || {
        object([
            ("part", "prologue".into()),
            ("first", 0.into()),
            ("last", 11.into()),
            ("actions", 12.into()),
            ("pages", Json::Null),
            ("quads", Json::Null),
        ])
    };
    for numbers in SIGNS {
        let (actions, [q, b, p]) = (Actions::new(numbers), numbers);
        let rest = parts(&actions);
        let rows = [prologue()].into_iter().chain(rest.iter().map(Part::json));
        let expected = object([
            ("actions", actions.total().into()),
            ("parts", Json::Array(rows.collect())),
            ("last_step", (actions.total() - 2).into()),
        ]);
        assert_eq!(printed(&format!("places {q} {b} {p} --json")), expected);
        let keys = documented("places");
        assert!(expected.paths().iter().all(|path| keys.contains(path)));
    }
}

/// "Total for N=2, Q=1: 252": 12, two pages of 16 actions, and 8 + 7 + 1 quads of 13.
#[test]
fn timeline_of_the_smallest_sign() {
    let text = run(&["places", "1", "1", "1"]).printed();
    let expected = "\
The update has 252 actions.

part places actions
prologue 0 to 11 12
erasing the last boot page 12 to 27 1 page 16
erasing the program pages 28 to 43 1 page 16
programming the program pages 44 to 147 8 quads 104
programming the boot pages 148 to 238 7 quads 91
programming the sequence quad 239 to 251 1 quad 13";
    assert!(
        lines_of_words(&text).join("\n").starts_with(expected),
        "{text}"
    );
}
