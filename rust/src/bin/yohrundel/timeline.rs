//! What the signs of a row did over time, a line a sign, with many calls in a column.

use std::env;
use std::io::{self, IsTerminal};

use crate::row_signs::Row;
use crate::timeline_columns::{Columns, SignState};
use crate::wording::counted;

/// The columns of a text that goes to no terminal, or to one of an unknown width.
const WIDTH: usize = 72;

/// What stands before a line.
const LABEL: usize = 9;

/// The columns of a drawing.
const DRAWN: usize = 440;

const DIGITS: &[u8] = b"0123456789abcdefghijklmnopqrstuvw";

pub struct Timeline {
    pub calls: u32,
    text: Columns,
    /// In finer columns, for a drawing.
    pub drawn: Columns,
    waits: Waits,
}

/// How long signs wait.
struct Waits {
    /// For each sign, for how many calls it waits now.
    now: Vec<u32>,
    /// The longest wait, and whose it was.
    longest: (u32, usize),
}

impl Waits {
    fn note(&mut self, number: usize, waits: bool) {
        let wait = &mut self.now[number];
        *wait = if waits { *wait + 1 } else { 0 };
        if *wait > self.longest.0 {
            self.longest = (*wait, number);
        }
    }
}

impl Timeline {
    /// For so many calls, in as many columns as a text has beside the labels.
    pub fn new(signs: usize, calls: u32) -> Timeline {
        Timeline {
            calls,
            text: Columns::new(signs, calls, width() - LABEL),
            drawn: Columns::new(signs, calls, DRAWN),
            waits: Waits {
                now: vec![0; signs],
                longest: (0, 0),
            },
        }
    }

    /// How many signs there are.
    pub fn signs(&self) -> usize {
        self.waits.now.len()
    }

    /// The row after a call, by the call's number from 0.
    pub fn note(&mut self, call: u32, row: &Row) {
        let mut columns = [&mut self.text, &mut self.drawn].map(|columns| columns.of_call(call));
        let mut running = 0;
        for (number, sign) in row.signs.iter().enumerate() {
            let works = sign.device.operation_runs();
            running += usize::from(works);
            let waits = row.standing.queue.waiting().contains(&(number as u32));
            let state = match (waits, works) {
                (true, _) => SignState::Waits,
                (_, true) => SignState::Works,
                _ if row.is_done(sign) => SignState::Done,
                _ => SignState::Between,
            };
            for column in &mut columns {
                column.note(number, state);
            }
            self.waits.note(number, waits);
        }
        for column in columns {
            column.together = column.together.max(running);
        }
    }

    /// A line for each sign, and one for the operations that ran together.
    pub fn picture(&self) -> String {
        let mut text = String::new();
        for number in 0..self.signs() {
            let line: String = self.text.states(number).map(character).collect();
            text += format!("sign {number:<3} {line}").trim_end();
            text += "\n";
        }
        let together = self.text.together().into_iter();
        let together = together.map(|count| DIGITS[count] as char);
        text + &format!("together {}\n", together.collect::<String>())
    }

    /// What the characters mean.
    pub fn legend(&self) -> String {
        let states = SignState::ALL.map(|state| match character(state) {
            ' ' => format!("blank {}", state.name()),
            character => format!("{character} {}", state.name()),
        });
        let (states, each) = (states.join("   "), self.text.calls_each());
        format!(
            "{states}\n\
             A column is {each}: what a sign did most often, and the most\n\
             operations that ran together, where a is 10 and w is 32.\n"
        )
    }

    /// The most operations that ran together.
    pub fn most_together(&self) -> usize {
        self.text.together().into_iter().max().unwrap_or(0)
    }

    /// The longest wait in calls, and whose it was; none where no sign waited.
    pub fn longest_wait(&self) -> Option<(u32, usize)> {
        Some(self.waits.longest).filter(|(calls, _)| *calls > 0)
    }

    /// The most operations that ran together, and who waited longest.
    pub fn summary(&self) -> String {
        let most = self.most_together();
        let waited = match self.longest_wait() {
            None => String::from("No sign waited."),
            Some((calls, sign)) => {
                let calls = counted(calls, "call");
                format!("The longest wait was {calls}, of sign {sign}.")
            }
        };
        format!("At most {most} ran together. {waited}\n")
    }
}

/// The character of a state.
fn character(state: SignState) -> char {
    match state {
        SignState::Waits => 'w',
        SignState::Works => '#',
        SignState::Between => '.',
        SignState::Done => ' ',
    }
}

/// The columns of a terminal, which COLUMNS gives.
fn width() -> usize {
    let given = env::var("COLUMNS")
        .ok()
        .filter(|_| io::stdout().is_terminal());
    let columns = given.and_then(|text| text.parse().ok());
    columns
        .filter(|columns| (20..=1000).contains(columns))
        .unwrap_or(WIDTH)
}

#[cfg(test)]
#[test]
fn digits() {
    assert_eq!(DIGITS.len(), 1 + yohrundel::MOST_SIGNS);
}
