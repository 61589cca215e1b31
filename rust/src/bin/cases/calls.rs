//! The calls by their names, and the answer to a line.

mod banks;
mod devices;
mod lanes;
mod plan;
mod reach;
mod rows;
mod rules;
mod run;
mod script;
mod sheet;
mod smallest;
mod updates;
mod walk;

use yohrundel::Decline;

use crate::inputs::{Inputs, NoCase};
use crate::outputs::Outputs;

/// Why a line gets no outputs of its call.
pub enum Refusal {
    NoCase,
    Declined(Decline),
}

impl From<NoCase> for Refusal {
    fn from(_: NoCase) -> Refusal {
        Refusal::NoCase
    }
}

impl From<Decline> for Refusal {
    fn from(decline: Decline) -> Refusal {
        Refusal::Declined(decline)
    }
}

type Answer = Result<Outputs, Refusal>;

/// Takes the inputs, all of them, and then makes the call.
type Call = fn(&mut Inputs) -> Answer;

/// A call of a later request is a line here and a function in a file of its subject.
const CALLS: &[(&str, Call)] = &[
    // Document 01.
    ("compare", rules::compare),
    ("possible", rules::possible),
    ("protected", rules::protected),
    ("store", devices::store),
    ("register_read", devices::register_read),
    ("startup", devices::start_up),
    ("flash_read", banks::flash_read),
    ("lower_bank", banks::lower_bank),
    ("page", banks::page),
    ("step", banks::step),
    ("reset", banks::reset),
    ("update_start", updates::update_start),
    ("turn", updates::turn),
    // Document 02.
    ("plan", plan::plan),
    ("page_sheet", sheet::page_sheet),
    ("lanes_out", lanes::lanes_out),
    ("lanes_back", lanes::lanes_back),
    ("valid_by_sum", rules::valid_by_sum),
    ("compare_reason", rules::compare_reason),
    ("write_script", script::write_script),
    ("reach", reach::reach),
    ("smallest", smallest::smallest),
    ("schedule", rows::schedule),
    // Lists of calls.
    ("walk", walk::walk),
    ("run", run::run),
    ("rowrun", rows::row_run),
];

/// What stands right of the bar.
pub fn answer(line: &str) -> String {
    match outputs(&mut Inputs::new(line)) {
        Ok(outputs) => outputs.to_string(),
        Err(Refusal::Declined(decline)) => decline.number().to_string(),
        Err(Refusal::NoCase) => String::from("?"),
    }
}

fn outputs(inputs: &mut Inputs) -> Answer {
    let name = inputs.part().ok_or(NoCase)?;
    let (_, call) = CALLS.iter().find(|(of, _)| *of == name).ok_or(NoCase)?;
    let answer = call(inputs);
    match inputs.part() {
        // A line that goes on after the inputs is no case, whatever they gave.
        Some(_) => Err(Refusal::NoCase),
        None => answer,
    }
}
