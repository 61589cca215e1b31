//! The `# Errors` section of each call lists exactly the declines that the model gives for its directed cases.

use std::collections::{BTreeMap, BTreeSet};

use model::generate::directed;
use yohrundel::Decline;

/// The numbers of declines by the name of a call.
type Declines = BTreeMap<String, BTreeSet<u32>>;

const FUNCTIONS: [&str; 11] = [
    include_str!("../../src/bank_calls.rs"),
    include_str!("../../src/cut_start_up.rs"),
    include_str!("../../src/device_calls.rs"),
    include_str!("../../src/lanes.rs"),
    include_str!("../../src/plan.rs"),
    include_str!("../../src/reach.rs"),
    include_str!("../../src/schedule.rs"),
    include_str!("../../src/script_calls.rs"),
    include_str!("../../src/sheet.rs"),
    include_str!("../../src/smallest.rs"),
    include_str!("../../src/update_calls.rs"),
];

const METHODS: [&str; 4] = [
    include_str!("../../src/sign.rs"),
    include_str!("../../src/sign/bank_calls.rs"),
    include_str!("../../src/sign/script_calls.rs"),
    include_str!("../../src/sign/update_calls.rs"),
];

/// Functions that the model has no cases of, each with one that has the same declines.
const ALIKE: [(&str, &str); 3] = [
    ("cut_start_up", "startup"),
    ("start_up", "startup"),
    ("turn_lent", "turn"),
];

/// The declines that a line of a section names.
fn named(line: &str) -> impl Iterator<Item = u32> + '_ {
    let names = line.split("[`Decline::").skip(1);
    let names = names.map(|rest| rest.split('`').next().expect("a name"));
    names.map(|name| {
        let mut all = Decline::ALL.iter();
        let decline = all.find(|decline| format!("{decline:?}") == name);
        decline.expect("a decline").number()
    })
}

/// What the sections above the functions of some files list.
fn listed(files: &[&str]) -> Declines {
    let (mut listed, mut section) = (Declines::new(), None);
    for line in files.iter().flat_map(|text| text.lines()).map(str::trim) {
        match (line, section.as_mut()) {
            ("/// # Errors", _) => section = Some(BTreeSet::new()),
            (_, Some(section)) if line.starts_with("///") => section.extend(named(line)),
            (_, Some(_)) if line.starts_with("pub fn ") => {
                let name = line["pub fn ".len()..].split(['(', '<']).next();
                listed.extend(name.map(String::from).zip(section.take()));
            }
            _ => {}
        }
    }
    listed
}

fn first_word(text: &str) -> &str {
    text.split(' ').next().expect("a word")
}

/// What the model gives for its directed cases.
fn given() -> Declines {
    let mut given = Declines::new();
    let cases = directed::cases().into_iter();
    for (_, case) in cases.chain(directed::request_cases()) {
        let answer = case.answer().expect("a case that the model knows");
        let number: u32 = first_word(&answer).parse().expect("a number");
        if number > 0 {
            let name = String::from(first_word(&case.inputs()));
            given.entry(name).or_default().insert(number);
        }
    }
    given
}

#[test]
fn functions_list_what_the_model_gives() {
    let (listed, given) = (listed(&FUNCTIONS), given());
    // No case of the model is a play by itself: it has the 1 to 3 of calls on a device and banks, and 14.
    let play = BTreeSet::from([1, 2, 3, 14]);
    for (name, declines) in &listed {
        let alike = ALIKE.iter().find(|(function, _)| function == name);
        let expected = match alike.map_or(name.as_str(), |(_, alike)| alike) {
            "play" | "play_length" => &play,
            name => &given[name],
        };
        assert_eq!(declines, expected, "{name}");
    }
    assert_eq!(listed.len(), 22);
}

/// A method has its own buffer, which is long enough.
#[test]
fn methods_list_what_the_functions_do() {
    let buffers = BTreeSet::from([17, 18]);
    let functions = listed(&FUNCTIONS);
    let methods = listed(&METHODS);
    for (name, declines) in &methods {
        let name = if name == "update" {
            "update_start"
        } else {
            name
        };
        assert_eq!(declines, &(&functions[name] - &buffers), "{name}");
    }
    assert_eq!(methods.len(), 17);
}
