//! `yohrundel row`: whole updates of a row of signs on one supply.

use yohrundel::{Decline, MOST_SIGNS};

use crate::arguments::{decimal, Arguments, DECIMAL_WORDS};
use crate::causes::started;
use crate::command::{Command, First};
use crate::drawing::SVG;
use crate::failure::{Answer, Failure};
use crate::given_sign::GivenSign;
use crate::json::JSON;
use crate::options::OptionSpec;
use crate::progress::Progress;
use crate::registers::REGISTER;
use crate::row_drawing::RowDrawing;
use crate::row_report::{Ending, Report, KEYS};
use crate::row_signs::Row;
use crate::sign_files::{BANK1, BANK2};
use crate::timeline::Timeline;

pub const COMMAND: Command = Command {
    name: "row",
    arguments: "SIGNS K Q B P [IMAGE]",
    first: First::Any,
    summary: "updates a row of signs on one supply",
    details: "\
SIGNS signs, 1 to 32, hang on a supply that bears K flash operations together, 1
to 32. Each is as for yohrundel update, with Q, B, P and IMAGE as there, and all
have the same banks and registers. Each call does one turn for one sign. One
that would launch an operation too many waits, and the longest waiting goes
first.
It prints a line a sign of who waited and whose operation ran over time, how
many operations ran together, how many calls it took, the longest wait, and
which bank each sign runs after a reset and start-up.
On a terminal the lines are as wide as COLUMNS says, else 72 columns.",
    options: &[BANK1, BANK2, REGISTER, CUT, JSON, DRAWING],
    keys: KEYS,
    run,
};

const CUT: OptionSpec = OptionSpec::value(
    "--cut",
    "CALL",
    "the supply fails after so many calls: all signs are reset together and started up, and each \
     runs its old bank, whole, or exactly the new",
);

const DRAWING: OptionSpec = SVG.explained(
    "draws the banks of each sign before the updates, after the calls and after the start-up, and \
     what each sign did over time, as SVG into FILE",
);

fn run(mut arguments: Arguments) -> Answer {
    let mut progress = Progress::new();
    let given = GivenSign::of(&arguments)?;
    let cut = arguments.value_form(&CUT, DECIMAL_WORDS, decimal)?;
    let (signs, k) = (arguments.number("SIGNS")?, arguments.number("K")?);
    let geometry = arguments.geometry()?;
    let path = arguments.optional();
    arguments.end()?;
    let sign = given.sign(geometry, path)?;
    check_range(signs, k)?;
    let total = started(&sign)?;
    let mut row = Row::of(sign, total, signs, k);
    let calls = last_call(&row, cut)?;
    let timeline = serve(&mut row, calls, &mut progress)?;
    let (ending, drawing) = (ending(&mut row, cut)?, RowDrawing::at_end(&row)?);
    let report = Report::restart(&mut row, timeline, ending)?;
    drawing.write(&row, &report, arguments.value(&DRAWING))?;
    if arguments.is_given(&JSON) {
        return Ok(report.json().line());
    }
    Ok(report.text().into())
}

/// Decline 19 before there is a store for so many signs.
fn check_range(signs: u32, k: u32) -> Result<(), Failure> {
    for (name, number) in [("SIGNS", signs), ("K", k)] {
        if !(1..=MOST_SIGNS as u32).contains(&number) {
            let cause = format!("{name} is {number}, not 1 to 32");
            return Err(Failure::declined(Decline::Row, cause));
        }
    }
    Ok(())
}

/// After how many calls the row ends, or is cut.
fn last_call(row: &Row, cut: Option<u32>) -> Result<u32, Failure> {
    let calls = row.calls();
    match cut {
        Some(cut) if cut > calls => {
            let reason = format!("the value of --cut is {cut}, but the row has {calls} calls");
            Err(Failure::arguments(reason))
        }
        Some(cut) => Ok(cut),
        None => Ok(calls),
    }
}

/// Does so many calls; gives what happened over time.
fn serve(row: &mut Row, calls: u32, progress: &mut Progress) -> Result<Timeline, Decline> {
    let mut timeline = Timeline::new(row.signs.len(), calls);
    for call in 0..calls {
        row.call()?;
        timeline.note(call, row);
        progress.show(call, calls);
    }
    Ok(timeline)
}

/// How a row that has made its calls ends: one more call says whether it is idle.
fn ending(row: &mut Row, cut: Option<u32>) -> Result<Ending, Decline> {
    Ok(match cut {
        Some(_) => Ending::Cut,
        None if row.call()?.is_none() => Ending::Idle,
        None => Ending::NotIdle,
    })
}
