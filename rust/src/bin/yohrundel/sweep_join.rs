//! The lines of all parts of a sweep put together.

use std::ffi::OsStr;

use crate::arguments::Arguments;
use crate::failure::Failure;
use crate::files;
use crate::sweep_line::{Line, Sweep};
use crate::sweep_tally::Tally;

/// A line, and where it was read.
struct Found {
    line: Line,
    at: String,
}

/// The sums of the lines in the files that are given, or of standard input: the line of the sweep in one part.
pub fn join(arguments: &mut Arguments) -> Result<Line, Failure> {
    let found = read_all(arguments)?;
    let none = || Failure::arguments("there is no line of a sweep");
    let first = found.first().ok_or_else(none)?;
    check_same(first, &found)?;
    let mut tally = Tally::default();
    for found in &found {
        tally.add(found.line.tally.clone());
    }
    let sweep = &first.line.sweep;
    if tally.fault.is_none() {
        check_parts(sweep.parts, &found)?;
        check_places(sweep, tally.places)?;
    }
    Ok(Line {
        sweep: Sweep {
            parts: 1,
            ..sweep.clone()
        },
        part: 1,
        tally,
    })
}

fn read_all(arguments: &mut Arguments) -> Result<Vec<Found>, Failure> {
    let mut found = Vec::new();
    read(arguments.optional().unwrap_or(OsStr::new("-")), &mut found)?;
    while let Some(path) = arguments.optional() {
        read(path, &mut found)?;
    }
    Ok(found)
}

/// Reads the lines of a file; blank ones are passed over.
fn read(path: &OsStr, to: &mut Vec<Found>) -> Result<(), Failure> {
    let text = files::bytes(path, usize::MAX)?;
    for (number, text) in (1..).zip(String::from_utf8_lossy(&text).lines()) {
        let at = format!("line {number} of {path:?}");
        if text.trim().is_empty() {
            continue;
        }
        let line = Line::read(text);
        let wrong = || Failure::arguments(format!("{at} is no line of yohrundel sweep --json"));
        let line = line.ok_or_else(wrong)?;
        to.push(Found { line, at });
    }
    Ok(())
}

/// All lines are of one sweep.
fn check_same(one: &Found, all: &[Found]) -> Result<(), Failure> {
    for other in all {
        if let Some(what) = difference(&one.line.sweep, &other.line.sweep) {
            let (at, first) = (&other.at, &one.at);
            let reason = format!("{at} is of another sweep than {first}: its {what} differ");
            return Err(Failure::arguments(reason));
        }
    }
    Ok(())
}

/// In what two sweeps differ. Signs of the same sizes have as many actions.
fn difference(one: &Sweep, other: &Sweep) -> Option<&'static str> {
    let differ = [
        ("sizes", one.geometry != other.geometry),
        ("masks", one.cuts.masks != other.cuts.masks),
        ("kinds", one.cuts.kinds != other.cuts.kinds),
        ("sample and seed", one.sample != other.sample),
        ("parts", one.parts != other.parts),
    ];
    differ
        .into_iter()
        .find(|(_, differ)| *differ)
        .map(|(what, _)| what)
}

/// Each part is there once.
fn check_parts(parts: u32, all: &[Found]) -> Result<(), Failure> {
    let mut all: Vec<&Found> = all.iter().collect();
    all.sort_by_key(|found| found.line.part);
    if let Some(pair) = all
        .windows(2)
        .find(|pair| pair[0].line.part == pair[1].line.part)
    {
        let (part, first, second) = (pair[0].line.part, &pair[0].at, &pair[1].at);
        let reason = format!("part {part} of {parts} is there twice: {first} and {second}");
        return Err(Failure::arguments(reason));
    }
    let missing = missing(parts, all.iter().map(|found| found.line.part));
    if missing.is_empty() {
        return Ok(());
    }
    let reason = format!("of {parts} parts these are missing: {}", missing.join(","));
    Err(Failure::arguments(reason))
}

/// The parts that are not among some ascending ones, as numbers and ranges.
fn missing(parts: u32, found: impl Iterator<Item = u32>) -> Vec<String> {
    let (mut missing, mut next) = (Vec::new(), 1);
    for part in found.map(u64::from).chain([u64::from(parts) + 1]) {
        match part - next {
            0 => {}
            1 => missing.push(next.to_string()),
            _ => missing.push(format!("{next}-{}", part - 1)),
        }
        next = part + 1;
    }
    missing
}

/// All parts together have the places of the sweep.
fn check_places(sweep: &Sweep, places: u32) -> Result<(), Failure> {
    let all = sweep
        .sample
        .map_or(sweep.actions + 1, |sample| sample.places);
    if places == all {
        return Ok(());
    }
    let reason = format!("the parts have {places} places together, the sweep {all}");
    Err(Failure::arguments(reason))
}

#[cfg(test)]
#[test]
fn missing_parts() {
    let of = |parts, found: &[u32]| missing(parts, found.iter().copied()).join(",");
    assert_eq!(of(3, &[1, 2, 3]), "");
    assert_eq!(of(3, &[]), "1-3");
    assert_eq!(of(8, &[1, 3, 7]), "2,4-6,8");
    assert_eq!(of(u32::MAX, &[2]), "1,3-4294967295");
}
