//! `yohrundel cut`: an update whose supply fails, once or again and again.

use yohrundel::Decline;

use crate::arguments::Arguments;
use crate::bank_drawing::BankDrawing;
use crate::causes::{read, started};
use crate::command::{Command, First};
use crate::cut_arguments::{take_cuts, Cut, CUT_START_UP, READ, THEN};
use crate::drawing::SVG;
use crate::failure::{Answer, Failure};
use crate::given_sign::GivenSign;
use crate::operation::running_operation;
use crate::options::OptionSpec;
use crate::picture::{legend, picture};
use crate::progress::Progress;
use crate::registers::REGISTER;
use crate::saves::{Saves, SAVE1, SAVE2};
use crate::sign::Sign;
use crate::sign_files::{BANK1, BANK2, IMAGE};
use crate::torn::change;
use crate::wording::{counted, ending, runs, whole_update};

pub const COMMAND: Command = Command {
    name: "cut",
    arguments: "Q B P PLACE KIND [MASK]",
    first: First::Any,
    summary: "runs an update whose supply fails",
    details: "\
Q, B, P and the sign are as for yohrundel update; the image is that of --image.
PLACE is how many actions are done when the supply fails, 0 to the total.
KIND is the kind of the reset: 0 or power-on, 1 or brown-out, 2 or other.
MASK chooses, where an operation runs, which bits of its next quad get through
(1) and which stay as they were (0): a hexadecimal word for all four words, or
four with commas between them. It is 0 where none is given.
Boot pages are at 1FC00000, of the bank that runs, and at 1FC20000, of the
other; program pages are at 1D000000, of the bank that runs and then of the
other. A read of the bank that an operation works on waits: it does the steps
that are left, and the update's turns for them would be declined by 6.
It prints what the read gave, and for how many steps it waited; which operation
runs at the cut, and a picture of both banks; which bank runs after the reset
and start-up and why; whether the same update is accepted again, and how that
ends.",
    options: &[
        IMAGE,
        BANK1,
        BANK2,
        REGISTER,
        READ,
        CUT_START_UP,
        THEN,
        SAVE_CUT1,
        SAVE2,
        DRAWING,
    ],
    keys: &[],
    run,
};

const SAVE_CUT1: OptionSpec = SAVE1.explained(
    "writes bank 1 to FILE as the last cut leaves it, in the format that the name says; - is \
     standard output, which then gets the bank's words alone",
);

const DRAWING: OptionSpec = SVG.explained(
    "draws both banks, page by page, before the update, at each cut and after each start-up, as \
     SVG into FILE",
);

fn run(arguments: Arguments) -> Answer {
    let mut progress = Progress::new();
    let (given, saves) = (GivenSign::of(&arguments)?, Saves::of(&arguments)?);
    let (image, svg) = (arguments.value(&IMAGE), arguments.value(&DRAWING));
    let (geometry, cuts) = take_cuts(arguments)?;
    let mut sign = given.sign(geometry, image)?;
    let total = started(&sign)?;
    if let Some(Cut { place, .. }) = cuts.iter().find(|cut| cut.place > total) {
        let cause = format!("PLACE is {place}, the total {total}");
        return Err(Failure::declined(Decline::Place, cause));
    }
    let mut drawing = BankDrawing::new("An update that is cut", geometry);
    let before = format!("Before the update {}.", runs(&sign));
    drawing.note("Before", &before, &sign)?;
    let (tries, left_out) = tries(&mut sign, &cuts, &mut drawing, &mut progress)?;
    if let Some(bank) = saves.write(&sign)? {
        drawing.write(svg)?;
        return Ok(bank);
    }
    let (again, legend) = (again(&mut sign, left_out, &mut progress)?, legend());
    drawing.write(svg)?;
    let actions = counted(total, "action");
    Ok(format!("The update has {actions}.\n{tries}{again}\n{legend}").into())
}

/// The cuts one after another, while the same update is accepted again; and whether any is left out.
fn tries(
    sign: &mut Sign,
    cuts: &[Cut],
    drawing: &mut BankDrawing,
    progress: &mut Progress,
) -> Result<(String, bool), Failure> {
    let mut text = String::new();
    for (number, cut) in cuts.iter().enumerate() {
        if number > 0 {
            if runs_new(sign) || sign.start().is_err() {
                return Ok((text, true));
            }
            text += "The same update is accepted again.\n";
        }
        let (title, before) = (
            format!("Cut at place {}", cut.place),
            until_cut(sign, cut, progress)?,
        );
        text += &pictured(&title, before, sign, drawing)?;
        let after = after_cut(sign, cut)?;
        text += &pictured("After the reset and start-up", after, sign, drawing)?;
    }
    Ok((text, false))
}

/// What happened, and both banks then, which are drawn too.
fn pictured(
    title: &str,
    happened: String,
    sign: &Sign,
    drawing: &mut BankDrawing,
) -> Result<String, Decline> {
    drawing.note(title, &happened, sign)?;
    let picture = picture(sign)?;
    Ok(format!("{happened}\n{picture}\n"))
}

/// The turns before the cut, and the read.
fn until_cut(sign: &mut Sign, cut: &Cut, progress: &mut Progress) -> Result<String, Failure> {
    sign.turn_until(cut.place, progress)?;
    let place = cut.place;
    let before = match cut.read {
        Some(address) => format!("At place {place} {}\nThen", reading(sign, place, address)?),
        None => format!("At place {place}"),
    };
    let operation = running_operation(sign.geometry, sign.device)?;
    Ok(format!("{before} the supply fails while {operation}.\n"))
}

/// A read of the CPU at a place, as the rest of a sentence and one more. The steps that it waited for are actions of the update.
fn reading(sign: &mut Sign, place: u32, address: u32) -> Result<String, Failure> {
    let (word, steps) = read(sign, address)?;
    sign.note_place(place + steps.unwrap_or(0));
    let waits = match steps {
        Some(1) => String::from("waits for 1 step, the operation's last,"),
        Some(steps) => format!("waits for {steps} steps, to the operation's end,"),
        None => String::from("does not wait"),
    };
    Ok(format!(
        "the CPU reads 0x{address:08X}.\nThe read {waits} and gives 0x{word:08X}."
    ))
}

/// The reset, the start-ups that are cut, with a reset after each, and the completed one.
fn after_cut(sign: &mut Sign, cut: &Cut) -> Result<String, Decline> {
    let mut text = reset(sign, cut)?;
    for stores in &cut.start_ups {
        text += &cut_start_up(sign, *stores)?;
        text += &reset(sign, cut)?;
    }
    sign.start_up()?;
    let runs = runs(sign);
    Ok(format!("{text}After the reset and start-up {runs}.\n"))
}

fn reset(sign: &mut Sign, cut: &Cut) -> Result<String, Decline> {
    let before = sign.banks.clone();
    sign.reset(cut.kind.number, cut.mask)?;
    let (kind, change) = (cut.kind.name, change(sign, &before)?);
    Ok(format!("The reset ({kind}) {change}.\n"))
}

fn cut_start_up(sign: &mut Sign, stores: u32) -> Result<String, Decline> {
    let when = match sign.cut_start_up(stores as usize)? {
        (0, _) => String::from("Before the start-up's first store"),
        (done, all) if done == all => String::from("After the start-up's last store"),
        (done, all) => format!("After {done} of the start-up's {all} stores"),
    };
    Ok(format!("{when} the supply fails again.\n"))
}

fn runs_new(sign: &Sign) -> bool {
    let [_, new] = sign.old_and_new();
    sign.device.running_bank() == Some(new)
}

/// The same update once more, where the old bank runs.
fn again(sign: &mut Sign, left_out: bool, progress: &mut Progress) -> Result<String, Decline> {
    if runs_new(sign) {
        let rest = if left_out {
            "; the other cuts are left out"
        } else {
            ""
        };
        let ending = ending(sign)?;
        return Ok(format!("The update is complete{rest}.\n{ending}"));
    }
    match started(sign) {
        Ok(total) => {
            let update = whole_update(sign, total, progress)?;
            Ok(format!("The same update is accepted again. {update}"))
        }
        Err(Failure { reason, .. }) => {
            let ending = ending(sign)?;
            Ok(format!("The same update is {reason}.\n{ending}"))
        }
    }
}

#[cfg(test)]
mod tests {
    use super::*;
    use crate::sign::made_up_image;
    use yohrundel::Geometry;

    /// The place that counts after a read at place 21, the third step of the first erase, which ends at place 27.
    fn reached(address: u32) -> Result<u32, Failure> {
        let geometry = Geometry { q: 1, b: 1, p: 1 };
        let mut sign = Sign::fresh(geometry, made_up_image(geometry)?)?;
        sign.turn_until(21, &mut Progress::new())?;
        reading(&mut sign, 21, address)?;
        Ok(sign.reached)
    }

    #[test]
    fn places_after_reads() {
        assert_eq!(reached(0x1FC2_0000).ok(), Some(27));
        assert_eq!(reached(0x1FC0_0000).ok(), Some(21));
    }
}
