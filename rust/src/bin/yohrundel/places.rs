//! `yohrundel places`: the timeline of an update, and the action of one place.

use yohrundel::{Decline, Geometry};

use crate::arguments::{decimal, formed, Arguments, DECIMAL_WORDS};
use crate::command::{Command, First};
use crate::failure::{Answer, Failure};
use crate::json::JSON;
use crate::place_report::PlaceReport;
use crate::places_timeline::{json, text};
use crate::sign::{made_up_image, Sign};
use crate::update_actions::UpdateActions;

pub const COMMAND: Command = Command {
    name: "places",
    arguments: "Q B P [PLACE]",
    first: First::Any,
    summary: "lists the actions of an update",
    details: "\
Q, B and P are the sign's sizes, as for yohrundel update; the image is made up.
An update has an action for each place from 0 on, a store or a step. Those that
erase one page or program one quad are a block.
Without PLACE it prints the parts of the update in their order, with the first
and the last place of each, its pages or quads and its actions, and which bank
runs where the supply fails.
PLACE is how many actions are done, 0 to the total, as for yohrundel cut. It
prints the action that is next there: the register, form and value of a store,
or which step of how many does which quad; the block of the action; and what a
cut there leaves.",
    options: &[JSON],
    keys: &[
        ("actions", "how many actions the update has"),
        ("parts", "without PLACE: an object for each part"),
        ("parts[].part", "its name"),
        ("parts[].first", "the place of its first action"),
        ("parts[].last", "the place of its last action"),
        ("parts[].actions", "how many actions it has"),
        ("parts[].pages", "the pages that it erases, else null"),
        ("parts[].quads", "the quads that it programs, else null"),
        (
            "last_step",
            "without PLACE: the place of the last step. A cut before it leaves the old bank, one \
             after it the new, one at it either",
        ),
        ("place", "PLACE"),
        (
            "part",
            "the part of the action; null at the total, as all else of an action",
        ),
        ("action", "store or step"),
        ("register", "the register of a store, else null"),
        ("form", "the form of a store, else null"),
        (
            "value",
            "the value of a store; null for a step and for a word of the image or of the new sequence \
             quad",
        ),
        (
            "step",
            "the number of a step in its operation, from 1, else null",
        ),
        ("quad", "the quad that a step does in its page, else null"),
        ("block", "the action's block, null in the prologue"),
        ("block.number", "its number, from 1"),
        ("block.blocks", "how many blocks the update has"),
        ("block.first", "the place of its first action"),
        ("block.last", "the place of its last action"),
        ("block.operation", "page erase or quad programming"),
        ("block.steps", "how many steps the operation has"),
        ("block.address", "what it stores to NVMADDR"),
        ("block.window", "the window of this address"),
        ("block.kind", "the kind of the page: boot or program"),
        ("block.page", "the page's number among those of its kind"),
        (
            "block.quad",
            "the quad's number in the page, null for a page erase",
        ),
        (
            "sequence_word",
            "the new bank's sequence word after a cut: as it was, not valid or as it was, erased, \
             not valid or one higher, or one higher",
        ),
        (
            "runs",
            "the bank that runs after a cut: old, old or new, or new",
        ),
    ],
    run,
};

fn run(mut arguments: Arguments) -> Answer {
    let geometry = arguments.geometry()?;
    let place = arguments.optional();
    arguments.end()?;
    let read = |place| formed(place, "PLACE", DECIMAL_WORDS, decimal);
    let place = place.map(read).transpose()?;
    let actions = actions(geometry)?;
    let as_json = arguments.is_given(&JSON);
    match place {
        Some(place) => {
            let report = PlaceReport::of(&actions, within(&actions, place)?)?;
            Ok(if as_json {
                report.json().line()
            } else {
                report.text().into()
            })
        }
        None if as_json => Ok(json(&actions)?.line()),
        None => Ok(text(&actions)?.into()),
    }
}

fn actions(geometry: Geometry) -> Result<UpdateActions, Decline> {
    let sign = Sign::fresh(geometry, made_up_image(geometry)?)?;
    UpdateActions::of(&sign)
}

/// A place up to the total.
fn within(actions: &UpdateActions, place: u32) -> Result<u32, Failure> {
    let total = actions.total();
    if place > total {
        let cause = format!("PLACE is {place}, the total {total}");
        return Err(Failure::declined(Decline::Place, cause));
    }
    Ok(place)
}
