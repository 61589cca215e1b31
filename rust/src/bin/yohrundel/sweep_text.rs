//! What a sweep or a part of it found, for people.

use yohrundel::Geometry;

use crate::lines::paragraph;
use crate::sweep_line::{Line, Sweep};
use crate::sweep_places::Sample;
use crate::wording::counted;

/// What was cut, and how many cuts came out how.
pub fn text(line: &Line) -> String {
    let (sign, cuts, counts) = (sign(&line.sweep), cuts(line), counts(line));
    format!("{}{}\n{counts}", paragraph(&sign), paragraph(&cuts))
}

fn sign(sweep: &Sweep) -> String {
    let (Geometry { q, b, p }, actions) = (sweep.geometry, counted(sweep.actions, "action"));
    format!("A sign with Q = {q}, B = {b} and P = {p}: its update has {actions}.")
}

fn cuts(Line { sweep, part, .. }: &Line) -> String {
    let front = match sweep.parts {
        1 => String::from("The supply was cut at"),
        parts => format!("This is part {part} of {parts} of a sweep: the supply is cut at"),
    };
    let all = counted(sweep.actions + 1, "place");
    let places = match sweep.sample {
        None => format!("all {all}"),
        Some(Sample { places, seed }) => format!("{places} of {all}, drawn with --seed {seed}"),
    };
    let kinds = counted(sweep.cuts.kinds.len(), "kind");
    let masks = counted(sweep.cuts.masks.len(), "mask");
    format!("{front} {places}, by {kinds} of reset with {masks} each.")
}

fn counts(Line { tally, .. }: &Line) -> String {
    let rows = [
        ("places", tally.places.into()),
        ("cuts", tally.cuts()),
        ("the old bank ran, whole", tally.old),
        ("the same update was accepted again", tally.old),
        ("exactly the new bank ran", tally.new),
    ];
    let row = |(words, count): (&str, u64)| format!("{words:34}  {count:>11}\n");
    rows.map(row).concat()
}
