//! `yohrundel update`: a whole update of a sign.

use crate::arguments::Arguments;
use crate::bank_drawing::BankDrawing;
use crate::causes::started;
use crate::command::{Command, First};
use crate::drawing::SVG;
use crate::failure::{Answer, Failure};
use crate::given_sign::GivenSign;
use crate::options::OptionSpec;
use crate::picture::{legend, picture};
use crate::progress::Progress;
use crate::registers::REGISTER;
use crate::saves::{Saves, SAVE1, SAVE2};
use crate::sign::Sign;
use crate::sign_files::{BANK1, BANK2};
use crate::wording::{ending, runs, whole_update};

pub const COMMAND: Command = Command {
    name: "update",
    arguments: "Q B P [IMAGE]",
    first: First::Any,
    summary: "runs a whole update of a sign",
    details: "\
The sign has Q quads per row (1, 2, 4, 8, 16, 32, 64 or 128), B boot pages (1 to
5) and P program pages (1 to 128) a bank. Without --bank1 and --bank2 its words
are made up: bank 1 runs with the sequence number 2, bank 2 holds an older
firmware with the sequence number 1.
IMAGE is a file of words, lowest byte first, exactly one bank long: (B + P) x
128 x Q bytes; - is standard input. Without it the image is made up.
Files of banks and images whose name ends in .hex, .ihex or .ihx are Intel HEX.
There the boot pages are at 1FC00000 and the program pages at 1D000000; what no
record gives is blank, and pages that are blank are not written.
It prints the update's total and turns, which bank runs before and after it and
why, whether the old bank kept every word and the new one is the image, and a
picture of both banks before and after.
Beside an update a probe may read registers while the key step is 0 or 1: such a
read changes nothing. A read at key step 2 or 3 closes the key and loses a store
of the update; see docs/POWER-FAIL.md.",
    options: &[BANK1, BANK2, REGISTER, SAVE1, SAVE2, DRAWING],
    keys: &[],
    run,
};

const DRAWING: OptionSpec = SVG
    .explained("draws both banks, page by page, before the update and after it, as SVG into FILE");

fn run(mut arguments: Arguments) -> Answer {
    let mut progress = Progress::new();
    let (given, saves) = (GivenSign::of(&arguments)?, Saves::of(&arguments)?);
    let geometry = arguments.geometry()?;
    let path = arguments.optional();
    arguments.end()?;
    let mut sign = given.sign(geometry, path)?;
    let total = started(&sign)?;
    let mut drawing = BankDrawing::new("A whole update", geometry);
    let report = report(&mut sign, total, &mut drawing, &mut progress)?;
    drawing.write(arguments.value(&DRAWING))?;
    let (bank, legend) = (saves.write(&sign)?, legend());
    Ok(bank.unwrap_or(format!("{report}\n{legend}").into()))
}

/// An accepted update from its start to its end.
fn report(
    sign: &mut Sign,
    total: u32,
    drawing: &mut BankDrawing,
    progress: &mut Progress,
) -> Result<String, Failure> {
    let before = format!("Before the update {}.", runs(sign));
    let picture = picture(sign)?;
    drawing.note("Before", &before, sign)?;
    let update = whole_update(sign, total, progress)?;
    let after = "After the update, a power-on reset and start-up";
    drawing.note(after, &ending(sign)?, sign)?;
    Ok(format!(
        "{before}\n\n{picture}\nThe update is accepted. {update}"
    ))
}
