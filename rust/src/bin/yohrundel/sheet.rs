//! `yohrundel sheet`: the state of a sign, a line a page.

use yohrundel::reset_kind::POWER_ON;
use yohrundel::{page_sheet, register, reset, start_up, Decline, Device, Geometry};

use crate::arguments::{hexadecimal, Arguments};
use crate::causes::impossible;
use crate::command::{Command, First};
use crate::failure::{Answer, Failure};
use crate::files;
use crate::options::OptionSpec;
use crate::registers::{Registers, REGISTER};

pub const COMMAND: Command = Command {
    name: "sheet",
    arguments: "Q B P BANK1 BANK2",
    first: First::Any,
    summary: "prints the state of a sign",
    details: "\
Q, B and P are the sign's sizes, and BANK1 and BANK2 files of its banks, as for
yohrundel update; - is standard input. The sign's state is that after power-on
and start-up, but for registers that an option sets.
It prints a line for each page, bank 1 then bank 2, boot then program: the bank,
B or P, the page of its kind, L or U for its side, 1 if protected else 0, and
how many of its quads aren't blank.",
    options: &[REGISTER, NVMCON, NVMPWP, NVMBWP],
    keys: &[],
    run,
};

const NVMCON: OptionSpec =
    OptionSpec::value("--nvmcon", "HEX", "sets NVMCON to a hexadecimal word");

const NVMPWP: OptionSpec =
    OptionSpec::value("--nvmpwp", "HEX", "sets NVMPWP to a hexadecimal word");

const NVMBWP: OptionSpec =
    OptionSpec::value("--nvmbwp", "HEX", "sets NVMBWP to a hexadecimal word");

/// The bytes of a line.
const LINE: usize = 17;

/// The column of a line that has 1 if the page is protected.
const PROTECTED: usize = 10;

fn run(mut arguments: Arguments) -> Answer {
    let geometry = arguments.geometry()?;
    let one = arguments.required("BANK1")?;
    let two = arguments.required("BANK2")?;
    let registers = registers(&arguments)?;
    arguments.end()?;
    let (one, two) = (files::bank(geometry, one)?, files::bank(geometry, two)?);
    let mut device = started(geometry, one.clone(), two.clone())?;
    registers.set(&mut device);
    let declined = |decline| impossible(geometry, &device, decline);
    sheet(geometry, device, &one, &two).map_err(declined)
}

/// The options that set one register each.
const SINGLE: [(OptionSpec, u32); 3] = [
    (NVMCON, register::NVMCON),
    (NVMPWP, register::NVMPWP),
    (NVMBWP, register::NVMBWP),
];

/// The registers that are set, with their values.
fn registers(arguments: &Arguments) -> Result<Registers, Failure> {
    let mut settings = Vec::new();
    for (option, register) in SINGLE {
        let value = arguments.value_form(&option, "a hexadecimal word", hexadecimal)?;
        settings.extend(value.map(|value| (register, value)));
    }
    Registers::of(arguments)?.and(settings)
}

/// The device after power-on and start-up. No operation runs, so no word changes.
fn started(geometry: Geometry, mut one: Vec<u32>, mut two: Vec<u32>) -> Result<Device, Decline> {
    let (device, one, two) = (Device::power_on(), &mut one, &mut two);
    let restarted = reset(geometry, device, one, two, &[], POWER_ON, [0; 4])?;
    start_up(geometry, restarted.device)
}

fn sheet(geometry: Geometry, device: Device, one: &[u32], two: &[u32]) -> Result<Vec<u8>, Decline> {
    let mut sheet = vec![0; 2 * geometry.pages()? * LINE];
    page_sheet(geometry, device, one, two, &mut sheet)?;
    Ok(sheet)
}

/// Whether each page is protected, those of bank 1 and then those of bank 2.
pub fn protected_pages(
    geometry: Geometry,
    device: Device,
    one: &[u32],
    two: &[u32],
) -> Result<Vec<bool>, Decline> {
    let sheet = sheet(geometry, device, one, two)?;
    let lines = sheet.chunks(LINE);
    Ok(lines.map(|line| line[PROTECTED] == b'1').collect())
}
