//! What a sweep or a part of it found, as a line of JSON, which is read again.

use yohrundel::Geometry;

use crate::json::{object, Json};
use crate::json_read;
use crate::records::RECORD;
use crate::resets::{mask_text, read_kind, read_mask};
use crate::sweep_cuts::Cuts;
use crate::sweep_places::Sample;
use crate::sweep_tally::{Fault, Tally};

/// What is cut, and in how many parts. All parts of a sweep have the same.
#[derive(Clone, Debug, PartialEq, Eq)]
pub struct Sweep {
    pub geometry: Geometry,
    /// The update's actions.
    pub actions: u32,
    pub cuts: Cuts,
    /// None where the supply is cut at all places.
    pub sample: Option<Sample>,
    pub parts: u32,
}

/// A part of a sweep, by its number from 1.
#[derive(Clone, Debug, PartialEq, Eq)]
pub struct Line {
    pub sweep: Sweep,
    pub part: u32,
    pub tally: Tally,
}

/// The keys of a line.
pub const KEYS: &[(&str, &str)] = &[
    ("q", "Q"),
    ("b", "B"),
    ("p", "P"),
    ("actions", "how many actions the update has"),
    ("masks", "the masks, each as MASK of yohrundel cut"),
    ("kinds", "the kinds of reset by their names"),
    (
        "sample",
        "how many places are drawn, null where all are cut",
    ),
    ("seed", "what they are drawn with, else null"),
    ("parts", "in how many parts the sweep is done"),
    ("part", "which of them this is, from 1"),
    ("places", "at how many places the supply was cut"),
    ("cuts", "how many cuts there were"),
    ("old", "after how many the old bank ran, with every word"),
    ("new", "after how many exactly the new bank ran"),
    (
        "accepted_again",
        "after how many the same update was accepted again",
    ),
    (
        "wrong",
        "null, or the cut with another outcome that ended the sweep; it is in no count",
    ),
    ("wrong.place", "its place"),
    ("wrong.kind", "its kind of reset"),
    ("wrong.mask", "its mask"),
    ("wrong.ran", "what ran after it"),
];

impl Line {
    pub fn json(&self) -> Json {
        let Line { sweep, part, tally } = self;
        let Geometry { q, b, p } = sweep.geometry;
        let masks: Vec<String> = sweep.cuts.masks.iter().copied().map(mask_text).collect();
        let kinds: Vec<&str> = sweep.cuts.kinds.iter().map(|kind| kind.name).collect();
        object([
            ("q", q.into()),
            ("b", b.into()),
            ("p", p.into()),
            ("actions", sweep.actions.into()),
            ("masks", masks.into()),
            ("kinds", kinds.into()),
            ("sample", sweep.sample.map(|sample| sample.places).into()),
            ("seed", sweep.sample.map(|sample| sample.seed).into()),
            ("parts", sweep.parts.into()),
            ("part", (*part).into()),
            ("places", tally.places.into()),
            ("cuts", tally.cuts().into()),
            ("old", tally.old.into()),
            ("new", tally.new.into()),
            ("accepted_again", tally.old.into()),
            ("wrong", tally.fault.as_ref().map(fault_json).into()),
        ])
    }

    /// Reads a line; none where it is no line of a sweep.
    pub fn read(text: &str) -> Option<Line> {
        let json = json_read::read(text)?;
        let sweep = sweep(&json)?;
        let tally = tally(&json, sweep.cuts.count() as u64)?;
        let part = u32_of(&json, "part")?;
        let is_one = (1..=sweep.parts).contains(&part);
        is_one.then_some(Line { sweep, part, tally })
    }
}

fn fault_json(fault: &Fault) -> Json {
    object([
        ("place", fault.place.into()),
        ("kind", fault.kind.name.into()),
        ("mask", mask_text(fault.mask).into()),
        ("ran", fault.ran.as_str().into()),
    ])
}

fn u32_of(json: &Json, key: &str) -> Option<u32> {
    u32::try_from(json.get(key)?.number()?).ok()
}

/// The values of a list of texts.
fn texts<T>(json: &Json, key: &str, read: fn(&str) -> Option<T>) -> Option<Vec<T>> {
    let texts = json.get(key)?.array()?.iter();
    texts.map(|text| read(text.text()?)).collect()
}

/// The sweep of a line, where its numbers are those of a sign.
fn sweep(json: &Json) -> Option<Sweep> {
    let number = |key| u32_of(json, key);
    let geometry = Geometry {
        q: number("q")?,
        b: number("b")?,
        p: number("p")?,
    };
    let actions = number("actions")?;
    let sample = match (json.get("sample")?, json.get("seed")?) {
        (Json::Null, Json::Null) => None,
        _ => Some(Sample {
            places: number("sample")?,
            seed: number("seed")?,
        }),
    };
    let is_a_sign = geometry.script_bytes() == Ok(RECORD * actions as usize);
    let is_a_part = sample.is_none_or(|sample| sample.places <= actions);
    let sweep = Sweep {
        geometry,
        actions,
        cuts: Cuts {
            masks: texts(json, "masks", read_mask)?,
            kinds: texts(json, "kinds", read_kind)?,
        },
        sample,
        parts: number("parts")?,
    };
    (is_a_sign && is_a_part).then_some(sweep)
}

/// The tally of a line with so many cuts at a place, where its counts agree.
fn tally(json: &Json, cuts: u64) -> Option<Tally> {
    let number = |key| json.get(key)?.number();
    let fault = match json.get("wrong")? {
        Json::Null => None,
        wrong => Some(fault(wrong)?),
    };
    let tally = Tally {
        places: u32_of(json, "places")?,
        old: number("old")?,
        new: number("new")?,
        fault,
    };
    let all = cuts.saturating_mul(tally.places.into());
    let is_whole = tally.fault.is_some() || tally.cuts() == all;
    let counts = [number("cuts")?, number("accepted_again")?];
    (is_whole && counts == [tally.cuts(), tally.old]).then_some(tally)
}

fn fault(json: &Json) -> Option<Fault> {
    let text = |key| json.get(key)?.text();
    Some(Fault {
        place: u32_of(json, "place")?,
        kind: read_kind(text("kind")?)?,
        mask: read_mask(text("mask")?)?,
        ran: text("ran")?.into(),
    })
}

#[cfg(test)]
mod tests {
    use super::*;
    use crate::resets::KINDS;

    fn line(sample: Option<Sample>, fault: Option<Fault>) -> Line {
        Line {
            sweep: Sweep {
                geometry: Geometry { q: 1, b: 1, p: 1 },
                actions: 252,
                cuts: Cuts {
                    masks: vec![[0; 4], [1, 2, 3, 0xFFFF_FFFF]],
                    kinds: KINDS[1..].into(),
                },
                sample,
                parts: 7,
            },
            part: 3,
            tally: Tally {
                places: 10,
                old: 33,
                new: 7,
                fault,
            },
        }
    }

    fn fault() -> Fault {
        Fault {
            place: 251,
            kind: KINDS[2],
            mask: [!0; 4],
            ran: String::from("no bank runs"),
        }
    }

    /// What is printed is read again.
    #[test]
    fn lines_are_read_again() {
        let sample = Sample {
            places: 70,
            seed: u32::MAX,
        };
        for line in [
            line(None, None),
            line(Some(sample), None),
            line(None, Some(fault())),
        ] {
            assert_eq!(Line::read(&line.json().to_string()), Some(line));
        }
    }

    #[test]
    fn line_with_a_fault() {
        let text = line(None, Some(fault())).json().to_string();
        let fault =
            r#""wrong":{"place":251,"kind":"other","mask":"FFFFFFFF","ran":"no bank runs"}}"#;
        assert!(text.ends_with(fault), "{text}");
    }

    /// Each number that does not fit the others, and each key that is missing or of another kind.
    #[test]
    fn lines_that_are_not_understood() {
        let text = line(None, None).json().to_string();
        for (from, to) in [
            (r#""q":1"#, r#""q":3"#),
            (r#""q":1"#, r#""q":2"#),
            (r#""actions":252"#, r#""actions":253"#),
            (r#""actions":252"#, r#""action":252"#),
            (r#""00000000""#, r#""x""#),
            (r#""brown-out""#, r#""brown""#),
            (r#""sample":null"#, r#""sample":10"#),
            (r#""sample":null,"seed":null"#, r#""sample":253,"seed":1"#),
            (r#""part":3"#, r#""part":0"#),
            (r#""part":3"#, r#""part":8"#),
            (r#""parts":7"#, r#""parts":4294967296"#),
            (r#""places":10"#, r#""places":11"#),
            (r#""cuts":40"#, r#""cuts":41"#),
            (r#""old":33"#, r#""old":32"#),
            (r#""new":7"#, r#""new":"7""#),
            (r#""accepted_again":33"#, r#""accepted_again":34"#),
            (r#""wrong":null"#, r#""wrong":{}"#),
        ] {
            let changed = text.replacen(from, to, 1);
            assert_ne!(changed, text, "{from}");
            assert_eq!(Line::read(&changed), None, "{to}");
        }
    }
}
