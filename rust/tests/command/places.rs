//! `yohrundel places`: the action of each place, its block and what a cut there leaves, beside the outside model.

use std::collections::BTreeSet;

use model::geometry::Bank;
use model::update::Action;

use crate::arguments::wrong;
use crate::json::Json;
use crate::objects::{documented, object, printed, sorted};
use crate::outside::Sign;
use crate::outside_blocks::{Actions, Block};
use crate::run::run;
use crate::texts::{FORMS, REGISTERS};
use crate::updates::MASKS;

/// The new bank's sequence word before the update. It is not valid, and its halves share a bit, so that the update is accepted.
const BEFORE: u32 = 0x8000_8000;

/// A sign whose other bank has no blank quad, so that every step of its update changes one.
fn written_sign(numbers: [u32; 3]) -> Sign {
    let fresh = Sign::fresh(numbers, None);
    let mut other = vec![0; fresh.old().len()];
    other[fresh.geometry.sequence_index()] = BEFORE;
    Sign::started(numbers, [fresh.old().to_vec(), other], None)
}

/// What stands at a place in the outside model.
struct Place {
    number: u32,
    action: Option<Action>,
    block: Option<Block>,
    /// The quad of the new bank that the place's step changes, by its number in the bank.
    changed: Option<u32>,
    sequence_word: &'static str,
    runs: &'static str,
}

/// All places of an update.
fn places(actions: &Actions, numbers: [u32; 3]) -> Vec<Place> {
    let mut sign = written_sign(numbers);
    let total = sign.start().expect("it is accepted");
    assert_eq!(total, actions.total());
    (0..=total)
        .map(|number| {
            let (sequence_word, runs) = cut(&sign);
            let before = sign.banks[1].clone();
            if number < total {
                sign.turns(number, number + 1);
            }
            let mut words = before.iter().zip(&sign.banks[1]);
            Place {
                number,
                action: (number < total).then(|| actions.at(number)),
                block: actions.block(number),
                changed: words
                    .position(|(one, other)| one != other)
                    .map(|word| word as u32 / 4),
                sequence_word,
                runs,
            }
        })
        .collect()
}

/// The new bank's sequence word and the bank that runs after cuts with several masks.
fn cut(sign: &Sign) -> (&'static str, &'static str) {
    let (mut words, mut banks) = (BTreeSet::new(), BTreeSet::new());
    for mask in MASKS {
        let mut sign = sign.clone();
        let runs = sign.restart(0, mask);
        if runs == Bank::One {
            sign.start().expect("it is accepted again");
        }
        banks.insert(runs.number());
        words.insert(sign.banks[1][sign.geometry.sequence_index()]);
    }
    let has = |word: u32| words.contains(&word);
    let word = match (has(BEFORE), has(!0), has(0xFFFC_0003)) {
        (true, false, false) => "as it was",
        (true, true, false) => "not valid or as it was",
        (false, true, false) => "erased",
        (false, true, true) => "not valid or one higher",
        (false, false, true) => "one higher",
        _ => panic!("{words:X?}"),
    };
    let runs = match (banks.contains(&1), banks.contains(&2)) {
        (true, false) => "old",
        (true, true) => "old or new",
        _ => "new",
    };
    (word, runs)
}

impl Place {
    /// The number of its step in the operation, from 1, and the quad in its page.
    fn step(&self, actions: &Actions) -> Option<(u32, u32)> {
        let block = self
            .block
            .as_ref()
            .filter(|_| self.action == Some(Action::Step))?;
        let quad = self.changed.expect("a step changes a quad");
        // An erase has seven stores before its steps, a programming eleven.
        let before = if block.erases() { 7 } else { 11 };
        let number = self.number - block.first - before + 1;
        Some((number, quad % actions.geometry.page_quads()))
    }

    /// Whether it stores a word to a data register, which differs from image to image.
    fn is_data(&self) -> bool {
        matches!(
            self.action,
            Some(Action::Store {
                register: 3..=6,
                ..
            })
        )
    }

    fn json(&self, actions: &Actions) -> Json {
        let block = self.block.as_ref();
        let part = block.map_or("prologue", |block| actions.part(block));
        let store = match self.action {
            Some(Action::Store {
                register,
                form,
                value,
            }) => Some((REGISTERS[register as usize], FORMS[form as usize], value)),
            _ => None,
        };
        let kind = |action| match action {
            Action::Store { .. } => "store",
            Action::Step => "step",
        };
        let value = store.filter(|_| !self.is_data()).map(|(_, _, value)| value);
        let step = self.step(actions);
        object([
            ("place", self.number.into()),
            ("actions", actions.total().into()),
            ("part", self.action.map(|_| part).into()),
            ("action", self.action.map(kind).into()),
            ("register", store.map(|(register, _, _)| register).into()),
            ("form", store.map(|(_, form, _)| form).into()),
            ("value", value.into()),
            ("step", step.map(|(number, _)| number).into()),
            ("quad", step.map(|(_, quad)| quad).into()),
            (
                "block",
                block.map(|block| block_json(actions, block)).into(),
            ),
            ("sequence_word", self.sequence_word.into()),
            ("runs", self.runs.into()),
        ])
    }

    /// The sentences of the text, with one blank between all words.
    fn text(&self, actions: &Actions) -> String {
        let cut = cut_sentence(self.sequence_word);
        let (number, total) = (self.number, actions.total());
        let front = format!("Place {number} of {total}");
        let does = match (self.action, self.step(actions)) {
            (None, _) => return format!("{front}: the update is done. {cut}"),
            (_, Some(step)) => self.step_words(actions, step),
            (
                Some(Action::Store {
                    register,
                    form,
                    value,
                }),
                _,
            ) => {
                let value = match (self.is_data(), self.block.as_ref()) {
                    (true, Some(block)) => data_words(actions, block),
                    _ => format!("0x{value:08X}"),
                };
                let (register, form) = (REGISTERS[register as usize], FORMS[form as usize]);
                format!("stores {value} to {register}, form {form}")
            }
            (Some(Action::Step), None) => panic!("a step outside the blocks"),
        };
        let block = match &self.block {
            Some(block) => block_sentence(actions, block),
            None => String::from("It is in the prologue, places 0 to 11."),
        };
        format!("{front} {does}. {block} {cut}")
    }

    fn step_words(&self, actions: &Actions, (number, quad): (u32, u32)) -> String {
        let block = self.block.as_ref().expect("a block");
        let (steps, operation) = match block.erases() {
            true => (actions.geometry.page_quads(), "page erase"),
            false => (1, "quad programming"),
        };
        let page = page_name(actions, block);
        format!("is step {number} of {steps} of a {operation}: quad {quad} of {page}")
    }
}

fn page_name(actions: &Actions, block: &Block) -> String {
    let page = actions.geometry.page_number(block.location);
    format!("{} page {page}", block.kind())
}

/// The quad of a block's address in its page.
fn first_quad(actions: &Actions, block: &Block) -> u32 {
    block.location.offset % actions.geometry.page_bytes() / 16
}

fn data_words(actions: &Actions, block: &Block) -> String {
    String::from(match actions.part(block) {
        "programming the sequence quad" => "a word of the new sequence quad",
        _ => "a data word of the image",
    })
}

fn block_sentence(actions: &Actions, block: &Block) -> String {
    let page = page_name(actions, block);
    let does = match block.erases() {
        true => format!("erases {page}"),
        false => format!("programs quad {} of {page}", first_quad(actions, block)),
    };
    let (number, blocks, window) = (block.number + 1, actions.blocks(), block.window());
    let (first, last, address) = (block.first, block.last, block.address);
    format!(
        "It is in block {number} of {blocks}, places {first} to {last}, which {does} in the \
         {window}, at 0x{address:08X}."
    )
}

fn block_json(actions: &Actions, block: &Block) -> Json {
    let erases = block.erases();
    let (operation, steps) = match erases {
        true => ("page erase", actions.geometry.page_quads()),
        false => ("quad programming", 1),
    };
    let quad = (!erases).then(|| first_quad(actions, block));
    object([
        ("number", (block.number + 1).into()),
        ("blocks", actions.blocks().into()),
        ("first", block.first.into()),
        ("last", block.last.into()),
        ("operation", operation.into()),
        ("steps", steps.into()),
        ("address", block.address.into()),
        ("window", block.window().into()),
        ("kind", block.kind().into()),
        ("page", actions.geometry.page_number(block.location).into()),
        ("quad", quad.into()),
    ])
}

fn cut_sentence(sequence_word: &str) -> &'static str {
    match sequence_word {
        "as it was" => {
            "A cut here leaves the new bank's sequence word as it was, and it loses the \
             comparison: the sign runs the old bank, whole, and the update is accepted again."
        }
        "not valid or as it was" => {
            "A cut here leaves the new bank's sequence word torn, so that it is not valid, or as \
             it was: the sign runs the old bank, whole, and the update is accepted again."
        }
        "erased" => {
            "A cut here leaves the new bank's sequence word erased, and so not valid: the sign \
             runs the old bank, whole, and the update is accepted again."
        }
        "not valid or one higher" => {
            "A cut here tears the new bank's sequence word: either it is not valid, and the sign \
             runs the old bank, whole, and the update is accepted again, or it is valid and one \
             higher, and the sign runs exactly the new bank."
        }
        _ => {
            "A cut here leaves the new bank's sequence word valid and one higher: the sign runs \
             exactly the new bank."
        }
    }
}

fn arguments([q, b, p]: [u32; 3], place: u32) -> String {
    format!("places {q} {b} {p} {place}")
}

fn check_text(numbers: [u32; 3], actions: &Actions, place: &Place) {
    let line = arguments(numbers, place.number);
    let text = run(&line.split(' ').collect::<Vec<_>>()).printed();
    assert!(text.lines().all(|line| line.len() <= 80), "{text}");
    let words: Vec<&str> = text.split_whitespace().collect();
    assert_eq!(words.join(" "), place.text(actions));
}

fn check_object(numbers: [u32; 3], actions: &Actions, place: &Place) {
    let line = format!("{} --json", arguments(numbers, place.number));
    assert_eq!(printed(&line), place.json(actions), "{line}");
}

/// Every place of the smallest sign.
#[test]
fn every_place_as_text() {
    let (numbers, actions) = ([1, 1, 1], Actions::new([1, 1, 1]));
    for place in places(&actions, numbers) {
        check_text(numbers, &actions, &place);
    }
}

/// Every place of a sign with other boot pages.
#[test]
fn every_place_as_an_object() {
    let (numbers, actions) = ([1, 2, 1], Actions::new([1, 2, 1]));
    for place in places(&actions, numbers) {
        check_object(numbers, &actions, &place);
    }
}

/// Larger signs: places of every part, and around its ends.
#[test]
fn places_of_larger_signs() {
    for numbers in [[2, 3, 2], [4, 2, 5], [8, 1, 3]] {
        let actions = Actions::new(numbers);
        let places = places(&actions, numbers);
        let part = |place: &Place| place.block.as_ref().map(|block| actions.part(block));
        for (number, place) in places.iter().enumerate() {
            let beside = [number.saturating_sub(1), (number + 1).min(places.len() - 1)];
            let is_end = beside
                .iter()
                .any(|other| part(&places[*other]) != part(place));
            if is_end || number % 41 == 0 {
                check_text(numbers, &actions, place);
                check_object(numbers, &actions, place);
            }
        }
    }
}

/// The help names every key, of places and of timelines.
#[test]
fn keys() {
    let mut keys = printed("places 1 1 1 30 --json").paths();
    keys.extend(printed("places 1 1 1 --json").paths());
    keys.sort();
    keys.dedup();
    assert_eq!(keys, sorted(documented("places")));
}

#[test]
fn arguments_that_are_not_understood() {
    wrong("places 1 1", "P is missing");
    let number = "a number from 0 to 4294967295";
    wrong("places 1 1 1 x", &format!("PLACE is \"x\", not {number}"));
    wrong("places 1 1 1 -1", "there is no option \"-1\"");
    wrong("places 1 1 1 1 1", "\"1\" is one argument too many");
    let reason = "places: declined by 13: the place exceeds the total: PLACE is 253, the total 252";
    assert_eq!(run(&["places", "1", "1", "1", "253"]).reason(1), reason);
    let reason = "places: declined by 1: the quads per row, boot pages or program pages are out \
                  of range: B is 6, not 1 to 5";
    assert_eq!(run(&["places", "1", "6", "1"]).reason(1), reason);
}
