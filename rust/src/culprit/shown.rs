//! Declines 20 and 21: a script of too many records, and a number that its play never gives.

use std::fmt;

use super::script::RECORD;
use super::Culprit;
use crate::{play, play_length, Bench, MOST_RECORDS};

/// Declines 20 and 21, after the lower ones.
pub(super) fn shown_culprit(bench: &Bench, script: &[u8], number: u32) -> Option<Culprit> {
    let records = script.len() / RECORD;
    if records > MOST_RECORDS {
        return Some(Culprit::Records(records));
    }
    let answers = answers(bench, script)?;
    // "Number 0 counts as never given."
    let shown = number != 0 && answers.contains(&number);
    (!shown).then_some(Culprit::NotShown { number, answers })
}

/// The answers of a play on copies of the banks, each once and ascending; none where the play is declined.
fn answers(bench: &Bench, script: &[u8]) -> Option<Vec<u32>> {
    let (geometry, device, sram) = (bench.geometry, bench.device, bench.sram);
    let bytes = play_length(geometry, device, bench.one, bench.two, sram, script).ok()?;
    let (mut one, mut two, mut output) = (bench.one.to_vec(), bench.two.to_vec(), vec![0; bytes]);
    let (first, second) = (&mut one[..], &mut two[..]);
    play(geometry, device, first, second, sram, script, &mut output).ok()?;
    // The second number of a line is the answer.
    let text = String::from_utf8_lossy(&output);
    let words = text.lines().filter_map(|line| line.split(' ').nth(1));
    let mut answers: Vec<u32> = words.filter_map(|word| word.parse().ok()).collect();
    answers.sort_unstable();
    answers.dedup();
    Some(answers)
}

/// Decline 21.
pub(super) fn write_not_shown(
    f: &mut fmt::Formatter<'_>,
    number: u32,
    answers: &[u32],
) -> fmt::Result {
    write!(f, "the number is {number}, ")?;
    if number == 0 {
        return f.write_str("which counts as never given");
    }
    let answers: Vec<String> = answers.iter().map(u32::to_string).collect();
    match answers.split_last() {
        None => f.write_str("and the script has no record"),
        Some((last, [])) => write!(f, "and the play gives {last}"),
        Some((last, front)) => write!(f, "and the play gives {} and {last}", front.join(", ")),
    }
}
