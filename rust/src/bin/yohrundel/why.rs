//! `yohrundel why`: what a decline means, and what to do about it.

use yohrundel::Decline;

use crate::arguments::{decimal, formed, Arguments};
use crate::command::{Command, First};
use crate::failure::Answer;
use crate::lines::paragraph;
use crate::why_texts::{explained, Explanation};

pub const COMMAND: Command = Command {
    name: "why",
    arguments: "[NUMBER]",
    first: First::Any,
    summary: "explains a decline",
    details: "\
NUMBER is why a call or a record is declined, 1 to 22. It prints what the number
says, when a call gives it, and what to do about it. Without NUMBER it prints a
line for each number.",
    options: &[],
    keys: &[],
    run,
};

fn run(mut arguments: Arguments) -> Answer {
    let number = arguments.optional();
    arguments.end()?;
    let text = match number {
        Some(number) => {
            let words = "a number from 0 to 22";
            let decline = formed(number, "NUMBER", words, read_decline)?;
            decline.map_or_else(|| String::from(ACCEPTED), explanation)
        }
        None => Decline::ALL.iter().copied().map(line).collect(),
    };
    Ok(text.into())
}

/// What is said of 0.
const ACCEPTED: &str = "0 is no decline: the work is done.\n";

/// A decline by its number; none for 0, by which none is given.
fn read_decline(text: &str) -> Option<Option<Decline>> {
    let number = decimal(text)?;
    let mut all = Decline::ALL.iter().copied();
    match number {
        0 => Some(None),
        _ => all.find(|decline| decline.number() == number).map(Some),
    }
}

fn line(decline: Decline) -> String {
    format!("{:2}  {}\n", decline.number(), decline.sentence())
}

/// What the number says, when it is given and what to do.
fn explanation(decline: Decline) -> String {
    let &Explanation { when, remedy } = explained(decline);
    let head = format!("{}: {}.", decline.number(), decline.sentence());
    let remedy = format!("What to do: {remedy}");
    [&head, when, &remedy].map(paragraph).concat()
}
