//! `yohrundel sweep`: the supply cut at every place of an update, or at many.

use crate::arguments::Arguments;
use crate::command::{Command, First};
use crate::failure::{Answer, Failure};
use crate::json::JSON;
use crate::options::OptionSpec;
use crate::progress::Progress;
use crate::sign::{made_up_image, Sign};
use crate::sweep_join::join;
use crate::sweep_line::{Line, Sweep, KEYS};
use crate::sweep_options::{Settings, KIND_LIST, MASK_LIST, PART, SAMPLE, SEED};
use crate::sweep_places::{places, share};
use crate::sweep_sign::Start;
use crate::sweep_text::text;
use crate::sweep_threads::sweep;

pub const COMMAND: Command = Command {
    name: "sweep",
    arguments: "Q B P",
    first: First::Any,
    summary: "cuts the supply at every place",
    details: "\
Q, B and P are the sign's sizes, and it begins, as for yohrundel update; the
image is made up. At every place of its update the supply is cut by each kind of
reset with each mask, on all cores. Every time, after a reset and start-up, the
sign must run the old bank with every word, and accept the same update again, or
exactly the new bank, the image with the new sequence quad, while the old one
kept every word. It prints how many cuts there were and how they came out. Any
other outcome ends it with its place, kind and mask, what ran, and status 1.

yohrundel sweep --join FILE.. adds up the lines that all parts of one sweep have
printed with --json, and prints what the whole sweep prints. FILE may be - for
standard input, which is read without FILE, too. Lines of different sweeps and
parts that are missing or there twice are refused.",
    options: &[MASK_LIST, KIND_LIST, SAMPLE, SEED, PART, JOIN, JSON],
    keys: KEYS,
    run,
};

const JOIN: OptionSpec = OptionSpec::flag("--join", "adds up lines of parts, in place of a sweep");

fn run(mut arguments: Arguments) -> Answer {
    arguments.exclude(&JOIN, &[MASK_LIST, KIND_LIST, SAMPLE, SEED, PART])?;
    let line = if arguments.is_given(&JOIN) {
        join(&mut arguments)?
    } else {
        part(&mut arguments)?
    };
    let json = arguments.is_given(&JSON).then(|| line.json().line());
    match &line.tally.fault {
        Some(fault) => Err(Failure::wrong_outcome(json.unwrap_or_default(), fault)),
        None => Ok(json.unwrap_or_else(|| text(&line).into())),
    }
}

/// A sweep, or a part of it.
fn part(arguments: &mut Arguments) -> Result<Line, Failure> {
    let mut progress = Progress::new();
    let settings = Settings::of(arguments)?;
    let geometry = arguments.geometry()?;
    arguments.end()?;
    let image = made_up_image(geometry)?;
    let start = Start::of(Sign::fresh(geometry, image.clone())?, image)?;
    swept(&start, settings, &mut progress)
}

/// The part of a sweep of a sign that the settings name.
fn swept(start: &Start, settings: Settings, progress: &mut Progress) -> Result<Line, Failure> {
    let (geometry, actions, part) = (start.geometry, start.total, settings.part);
    let sample = settings.sample(geometry, actions)?;
    let places = places(actions, sample);
    let places = share(&places, part.number as usize, part.of as usize);
    let tally = sweep(start, &settings.cuts, places, progress)?;
    Ok(Line {
        sweep: Sweep {
            geometry,
            actions,
            cuts: settings.cuts,
            sample,
            parts: part.of,
        },
        part: part.number,
        tally,
    })
}
