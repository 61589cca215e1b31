//! The numbers and symbols of include/yohrundel.h are those of the crate.

use std::collections::{BTreeMap, BTreeSet};
use std::fmt::Debug;

use yohrundel::{form, nvmcon, register, reset_kind, Decline, Reason, MOST_RECORDS, MOST_SIGNS};

const HEADER: &str = include_str!("../../include/yohrundel.h");

/// Each name that the header gives a number, without its prefix.
fn header() -> BTreeMap<String, u32> {
    HEADER.lines().filter_map(named_number).collect()
}

/// `YOHRUNDEL_NAME = number` or `#define YOHRUNDEL_NAME number`.
fn named_number(line: &str) -> Option<(String, u32)> {
    let line = line.trim().trim_end_matches(',');
    let (name, number) = match line.strip_prefix("#define ") {
        Some(definition) => definition.split_once(' ')?,
        None => line.split_once(" = ")?,
    };
    let name = name.strip_prefix("YOHRUNDEL_")?;
    let number = match number.strip_prefix("0x") {
        Some(digits) => u32::from_str_radix(digits.trim_end_matches('u'), 16),
        None => number.parse(),
    };
    Some((String::from(name), number.ok()?))
}

/// A variant's name as C writes it, after what it is of.
fn constant(of: &str, variant: impl Debug) -> String {
    let mut name = String::from(of);
    for letter in format!("{variant:?}").chars() {
        if letter.is_uppercase() {
            name.push('_');
        }
        name.push(letter.to_ascii_uppercase());
    }
    name
}

/// The numbers that have a name of their own in the header.
const NAMED: [(&str, u32); 34] = [
    ("ACCEPTED", 0),
    ("MOST_SRAM_WORDS", 16_384),
    ("MOST_RECORDS", MOST_RECORDS as u32),
    ("MOST_SIGNS", MOST_SIGNS as u32),
    ("MOST_WINDOWS", 14),
    // The wrapper's reset gives an error then.
    ("REASON_NOT_COMPARED", 4),
    // The answers of `reach`: the variants of `Reach`, and the error.
    ("REACH_ACTION", 0),
    ("REACH_NO_ACTION", 1),
    ("REACH_WORDS", 2),
    ("REACH_NOT_COMPARED", 3),
    ("NVMCON", register::NVMCON),
    ("NVMKEY", register::NVMKEY),
    ("NVMADDR", register::NVMADDR),
    ("NVMDATA0", register::NVMDATA0),
    ("NVMDATA1", register::NVMDATA0 + 1),
    ("NVMDATA2", register::NVMDATA0 + 2),
    ("NVMDATA3", register::NVMDATA0 + 3),
    ("NVMSRCADDR", register::NVMSRCADDR),
    ("NVMPWP", register::NVMPWP),
    ("NVMBWP", register::NVMBWP),
    ("NVMCON2", register::NVMCON2),
    ("PLAIN", form::PLAIN),
    ("CLEAR", form::CLEAR),
    ("SET", form::SET),
    ("INVERT", form::INVERT),
    ("POWER_ON", reset_kind::POWER_ON),
    ("BROWN_OUT", reset_kind::BROWN_OUT),
    ("OTHER_RESET", reset_kind::OTHER),
    ("WR", nvmcon::WR),
    ("WREN", nvmcon::WREN),
    ("WRERR", nvmcon::WRERR),
    ("LVDERR", nvmcon::LVDERR),
    ("PFSWAP", nvmcon::PFSWAP),
    ("BFSWAP", nvmcon::BFSWAP),
];

#[test]
fn numbers() {
    let declines = Decline::ALL.iter();
    let declines = declines.map(|decline| (constant("DECLINE", decline), decline.number()));
    let reasons = Reason::ALL.iter();
    let reasons = reasons.map(|reason| (constant("REASON", reason), reason.number()));
    let named = NAMED.map(|(name, number)| (String::from(name), number));
    let expected = declines.chain(reasons).chain(named);
    assert_eq!(header(), expected.collect::<BTreeMap<String, u32>>());
}

/// One version: that of Cargo.toml, of the header and of the first section of CHANGELOG.md.
#[test]
fn version() {
    let version = env!("CARGO_PKG_VERSION");
    let defined = format!("#define YOHRUNDEL_VERSION \"{version}\"\n");
    assert!(HEADER.contains(&defined));
    let changes = include_str!("../../CHANGELOG.md");
    let first = changes.lines().find_map(|line| line.strip_prefix("## "));
    assert_eq!(first, Some(version));
}

/// The crate's declarations of the archives' functions that a device goes through.
const DECLARED: [&str; 5] = [
    include_str!("../src/ffi/banks.rs"),
    include_str!("../src/ffi/device.rs"),
    include_str!("../src/ffi/play.rs"),
    include_str!("../src/ffi/sheet.rs"),
    include_str!("../src/ffi/update.rs"),
];

/// Each call by its name, with the symbol that the header gives it instead.
fn renamed() -> BTreeMap<&'static str, &'static str> {
    let definitions = HEADER
        .lines()
        .filter_map(|line| line.strip_prefix("#define "));
    let pairs = definitions.filter_map(|definition| definition.split_once(' '));
    pairs
        .filter(|(name, _)| name.starts_with("yohrundel_"))
        .collect()
}

/// The same in the crate: an attribute, and the function in the line after it.
fn linked() -> BTreeMap<&'static str, &'static str> {
    let mut linked = BTreeMap::new();
    for text in DECLARED {
        let lines = text.lines().map(str::trim);
        for (attribute, function) in lines.clone().zip(lines.skip(1)) {
            let Some(symbol) = attribute.strip_prefix("#[link_name = \"") else {
                continue;
            };
            let name = function.trim_start_matches("fn ").split('(').next();
            linked.insert(name.expect("a name"), symbol.trim_end_matches("\"]"));
        }
    }
    linked
}

/// The name of a call that a line begins to declare.
fn declared(line: &'static str) -> Option<&'static str> {
    let (front, _) = line.split_once('(')?;
    let (answer, name) = front.split_once(' ')?;
    answer.starts_with("yohrundel_").then_some(name)
}

/// Calls that came when the device had its present length, and so have their name as their symbol.
const LATER: [&str; 2] = ["yohrundel_smallest", "yohrundel_write_script"];

/// The calls that take a device, in their first line or in the second, and the one that gives it alone.
fn with_a_device() -> BTreeSet<&'static str> {
    let lines = HEADER.lines().zip(HEADER.lines().skip(1));
    let takes =
        |line: &str| line.contains("yohrundel_device d") || line.contains("yohrundel_device *d");
    let calls = lines.filter(|(first, second)| takes(first) || takes(second));
    let names = calls.filter_map(|(first, _)| declared(first));
    names.chain(["yohrundel_power_on"]).collect()
}

/// A device of another length is a call of another symbol; the flash read has changed once more.
#[test]
fn symbols_of_calls_with_a_device() {
    let renamed = renamed();
    assert_eq!(renamed, linked());
    let names: BTreeSet<&str> = renamed.keys().copied().chain(LATER).collect();
    assert_eq!(names, with_a_device());
    for (name, symbol) in renamed {
        let number = if name == "yohrundel_flash_read" { 3 } else { 2 };
        assert_eq!(symbol, format!("{name}_{number}"));
    }
}
