//! What a row of signs did and what each sign runs then, as text and as an object.

use yohrundel::{Bank, Decline, SignRecord};

use crate::json::{object, Json};
use crate::row_signs::Row;
use crate::timeline::Timeline;
use crate::wording::counted;

/// How the calls of a row end.
#[derive(Clone, Copy)]
pub enum Ending {
    Cut,
    Idle,
    NotIdle,
}

/// What stands in the bank that a sign runs.
#[derive(Clone, Copy)]
enum Runs {
    Old,
    New,
    Neither,
    Nothing,
}

/// A sign after the row.
struct SignEnd {
    place: u32,
    bank: Option<Bank>,
    runs: Runs,
}

/// What a row did, and its signs after it.
pub struct Report {
    pub k: u32,
    /// The actions of each update.
    total: u32,
    pub timeline: Timeline,
    pub ending: Ending,
    signs: Vec<SignEnd>,
}

/// The keys of a report's object.
pub const KEYS: &[(&str, &str)] = &[
    ("supply_bears", "how many operations the supply bears: K"),
    ("actions", "how many actions each update has"),
    ("calls", "how many calls were made"),
    (
        "end",
        "cut where the supply failed after these calls, else idle or not idle",
    ),
    ("most_together", "the most operations that ran together"),
    (
        "longest_wait_calls",
        "the longest wait, 0 where no sign waited",
    ),
    (
        "longest_wait_sign",
        "whose it was, null where no sign waited",
    ),
    (
        "signs",
        "an object for each sign, after a power-on reset and start-up of all",
    ),
    ("signs[].sign", "its number, from 0"),
    ("signs[].place", "how many of its actions were done"),
    ("signs[].bank", "the bank that runs, null where none does"),
    (
        "signs[].runs",
        "old for the old bank with every word, new for exactly the new one, neither, or none",
    ),
];

impl Report {
    /// Resets the signs of a row and starts them up.
    pub fn restart(row: &mut Row, timeline: Timeline, ending: Ending) -> Result<Report, Decline> {
        row.restart()?;
        Ok(Report {
            k: row.k,
            total: row.total,
            timeline,
            ending,
            signs: row
                .signs
                .iter()
                .map(|sign| SignEnd::of(row, sign))
                .collect(),
        })
    }

    /// The report for people.
    pub fn text(&self) -> String {
        let (head, timeline) = (self.head(), &self.timeline);
        let (picture, legend, summary) =
            (timeline.picture(), timeline.legend(), timeline.summary());
        let ends = self.ends();
        format!("{head}\n{picture}\n{legend}\n{summary}\n{ends}")
    }

    /// How the calls end, and what each sign runs then.
    pub fn ends(&self) -> String {
        let (calls, end) = (counted(self.timeline.calls, "call"), self.ending.sentence());
        let mut text =
            format!("After {calls} {end}. After a power-on reset and start-up of all:\n");
        for (number, sign) in self.signs.iter().enumerate() {
            let (place, runs) = (sign.place, sign.sentence());
            text += &format!("sign {number:<2} at place {place}: {runs}\n");
        }
        text
    }

    /// How many signs hang on what supply.
    pub fn head(&self) -> String {
        let (count, k, actions) = (self.signs.len(), self.k, counted(self.total, "action"));
        let signs = if count == 1 {
            "sign hangs"
        } else {
            "signs hang"
        };
        let operations = if k == 1 {
            "operation at a time"
        } else {
            "operations together"
        };
        format!(
            "{count} {signs} on a supply that bears {k} {operations}.\n\
             Each update is accepted and has {actions}.\n"
        )
    }

    /// The report for programs.
    pub fn json(&self) -> Json {
        let wait = self.timeline.longest_wait();
        let signs = self.signs.iter().enumerate();
        let signs: Vec<Json> = signs.map(|(number, sign)| sign.json(number)).collect();
        object([
            ("supply_bears", self.k.into()),
            ("actions", self.total.into()),
            ("calls", self.timeline.calls.into()),
            ("end", self.ending.word().into()),
            ("most_together", self.timeline.most_together().into()),
            (
                "longest_wait_calls",
                wait.map_or(0, |(calls, _)| calls).into(),
            ),
            ("longest_wait_sign", wait.map(|(_, sign)| sign).into()),
            ("signs", signs.into()),
        ])
    }
}

impl SignEnd {
    fn of(row: &Row, sign: &SignRecord) -> SignEnd {
        let ([old, new], (kept, exact)) = (row.old_and_new(), row.kept_and_exact(sign));
        let bank = sign.device.running_bank();
        let runs = match bank {
            Some(bank) if bank == old && kept => Runs::Old,
            Some(bank) if bank == new && kept && exact => Runs::New,
            Some(_) => Runs::Neither,
            None => Runs::Nothing,
        };
        SignEnd {
            place: sign.place,
            bank,
            runs,
        }
    }

    fn sentence(&self) -> String {
        match self.bank {
            Some(bank) => format!("bank {} runs, {}", bank.number(), self.runs.words()),
            None => String::from("no bank runs"),
        }
    }

    fn json(&self, number: usize) -> Json {
        object([
            ("sign", number.into()),
            ("place", self.place.into()),
            ("bank", self.bank.map(Bank::number).into()),
            ("runs", self.runs.word().into()),
        ])
    }
}

impl Ending {
    /// The rest of a sentence that begins with the calls.
    pub fn sentence(self) -> &'static str {
        match self {
            Ending::Cut => "the supply fails",
            Ending::Idle => "the row is idle",
            Ending::NotIdle => "the row is not idle",
        }
    }

    fn word(self) -> &'static str {
        match self {
            Ending::Cut => "cut",
            Ending::Idle => "idle",
            Ending::NotIdle => "not idle",
        }
    }
}

impl Runs {
    /// The bank that runs, in words.
    fn words(self) -> &'static str {
        match self {
            Runs::Old => "the old one, with every word",
            Runs::New => "exactly the new one",
            Runs::Neither => "neither the old one nor the new",
            Runs::Nothing => "none",
        }
    }

    fn word(self) -> &'static str {
        match self {
            Runs::Old => "old",
            Runs::New => "new",
            Runs::Neither => "neither",
            Runs::Nothing => "none",
        }
    }
}
