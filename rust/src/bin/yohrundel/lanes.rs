//! `yohrundel lanes`: an image in byte lanes, and back.

use yohrundel::{lanes_back, lanes_out, Decline};

use crate::arguments::Arguments;
use crate::command::{Command, First};
use crate::failure::{Answer, Failure};
use crate::files;
use crate::wording::counted;

pub const COMMAND: Command = Command {
    name: "lanes",
    arguments: "out|back FILE",
    first: First::OneOf(&["out", "back"]),
    summary: "stores images in byte lanes, and back",
    details: "\
FILE is an image of words, lowest byte first, of any length; - is standard
input. Out writes all first bytes of its words to standard output, then all
second, third and fourth. Back restores the image from them. A file whose length
is no multiple of 4 is declined.",
    options: &[],
    keys: &[],
    run,
};

/// One of the two ways.
type Way = fn(&[u8], &mut [u8]) -> Result<(), Decline>;

fn run(mut arguments: Arguments) -> Answer {
    let way: Way = arguments.form("the way", "out or back", |text| match text {
        "out" => Some(lanes_out as Way),
        "back" => Some(lanes_back),
        _ => None,
    })?;
    let path = arguments.required("FILE")?;
    arguments.end()?;
    let source = files::bytes(path, usize::MAX)?;
    let mut target = vec![0; source.len()];
    let declined = |decline| {
        let bytes = counted(source.len(), "byte");
        Failure::declined(decline, format_args!("{path:?} has {bytes}"))
    };
    way(&source, &mut target).map_err(declined)?;
    Ok(target)
}
