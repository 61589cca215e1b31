//! Which clause of declines 3 and 10 applies: the first in the order of its sentence.

use crate::device::*;
use crate::flash::reset_choice;
use crate::geometry::{Bank, Banks, Geometry, Kind, Side};
use crate::operation::rounded_address;
use crate::sequence::{halves_disjoint, valid, Reason};

/// Decline 3: "The device record is impossible", with the numbers that show it.
#[derive(Clone, Copy, Debug, PartialEq, Eq)]
pub enum DeviceClause {
    /// "an unimplemented bit set"; NVMKEY has no mask but a clause of its own.
    Unimplemented { register: usize, value: u32 },
    /// "NVMBWP bit 6 clear"
    BitSixClear { nvmbwp: u32 },
    /// "NVMKEY not 0"
    KeyNotZero { nvmkey: u32 },
    /// "key step above 3"
    KeyStepAbove { key_step: u32 },
    /// "WR = 0 with step number not 0"
    StepAtRest { step_number: u32 },
    /// W-209: "all 0 while WR is 0, else decline 3"; the first that is not, by the register that it was launched from.
    LaunchedAtRest { register: usize, value: u32 },
    /// "WR = 1 with key step not 0"
    KeyStepRunning { key_step: u32 },
    /// "WRERR = 0"
    NoWrerr { nvmcon: u32 },
    /// "LVDERR = 1"
    Lvderr { nvmcon: u32 },
    /// "an NVMOP .. for which no steps begin"
    NoOperation { nvmcon: u32 },
    /// A target for which none begin: "Outside the four windows".
    Outside { address: u32 },
    /// "or in a protected program page"
    ProtectedPage { address: u32, nvmpwp: u32 },
    /// "failure if any page in it is protected. 7 both: failure if PWP is not 0."
    ProtectedRegion { nvmop: u32, nvmpwp: u32 },
    /// "step number not below its length"
    StepPastEnd {
        nvmop: u32,
        step_number: u32,
        length: u32,
    },
}

/// None for a device that is possible.
pub fn device_clause(geometry: &Geometry, device: &Device) -> Option<DeviceClause> {
    let mut clauses = clauses_of_any(device);
    if device.running() {
        clauses.extend(clauses_while_running(device));
        clauses.push(target(geometry, device));
        clauses.push(step_past_end(geometry, device));
    } else {
        clauses.extend(clauses_at_rest(device));
    }
    clauses.into_iter().flatten().next()
}

fn clauses_of_any(device: &Device) -> Vec<Option<DeviceClause>> {
    let (nvmbwp, nvmkey) = (device.registers[NVMBWP], device.registers[NVMKEY]);
    let key_step = device.key_step;
    vec![
        unimplemented(device),
        (nvmbwp & BWP_ALWAYS == 0).then_some(DeviceClause::BitSixClear { nvmbwp }),
        (nvmkey != 0).then_some(DeviceClause::KeyNotZero { nvmkey }),
        (key_step > 3).then_some(DeviceClause::KeyStepAbove { key_step }),
    ]
}

fn unimplemented(device: &Device) -> Option<DeviceClause> {
    let mut rows = (0..REGISTERS).filter(|row| *row != NVMKEY);
    let register = rows.find(|row| device.registers[*row] & !MASKS[*row] != 0)?;
    let value = device.registers[register];
    Some(DeviceClause::Unimplemented { register, value })
}

fn clauses_at_rest(device: &Device) -> [Option<DeviceClause>; 2] {
    let step_number = device.step_number;
    let mut launched = (NVMADDR..=NVMSRCADDR).zip(device.launched.numbers());
    let not_zero = launched.find(|(_, value)| *value != 0);
    [
        (step_number != 0).then_some(DeviceClause::StepAtRest { step_number }),
        not_zero.map(|(register, value)| DeviceClause::LaunchedAtRest { register, value }),
    ]
}

fn clauses_while_running(device: &Device) -> [Option<DeviceClause>; 4] {
    let (key_step, nvmcon) = (device.key_step, device.registers[NVMCON]);
    let (wrerr, lvderr) = (device.con(WRERR), device.con(LVDERR));
    let begins = (2..=7).contains(&device.nvmop());
    [
        (key_step != 0).then_some(DeviceClause::KeyStepRunning { key_step }),
        (!wrerr).then_some(DeviceClause::NoWrerr { nvmcon }),
        lvderr.then_some(DeviceClause::Lvderr { nvmcon }),
        (!begins).then_some(DeviceClause::NoOperation { nvmcon }),
    ]
}

/// "a .. target for which no steps begin"; W-209: "3 judges the launched target".
fn target(geometry: &Geometry, device: &Device) -> Option<DeviceClause> {
    let (nvmop, nvmpwp) = (device.nvmop(), device.registers[NVMPWP]);
    let any_protected = |side| {
        let mut pages = 0..geometry.program_pages;
        pages.any(|page| protected(geometry, device, Kind::Program, side, page))
    };
    let failure = match nvmop {
        2..=4 => return addressed_target(geometry, device),
        5 => any_protected(Side::Lower),
        6 => any_protected(Side::Upper),
        7 => device.pwp() != 0,
        _ => false,
    };
    failure.then_some(DeviceClause::ProtectedRegion { nvmop, nvmpwp })
}

fn addressed_target(geometry: &Geometry, device: &Device) -> Option<DeviceClause> {
    let (address, nvmpwp) = (device.launched.address, device.registers[NVMPWP]);
    let rounded = rounded_address(geometry, device, address);
    let Some(location) = geometry.locate(rounded) else {
        return Some(DeviceClause::Outside { address });
    };
    let in_program_page = location.kind == Kind::Program;
    let failure = in_program_page && location_protected(geometry, device, location);
    failure.then_some(DeviceClause::ProtectedPage { address, nvmpwp })
}

/// "1 for a quad, Q for a row, 8×Q for a page, 8×Q×P for a region", of which NVMOP 7 has two.
fn step_past_end(geometry: &Geometry, device: &Device) -> Option<DeviceClause> {
    let (nvmop, step_number) = (device.nvmop(), device.step_number);
    let (quads, pages) = (geometry.row_quads, geometry.program_pages);
    let length = match nvmop {
        2 => 1,
        3 => quads,
        4 => 8 * quads,
        5 | 6 => 8 * quads * pages,
        7 => 2 * 8 * quads * pages,
        _ => return None,
    };
    (step_number >= length).then_some(DeviceClause::StepPastEnd {
        nvmop,
        step_number,
        length,
    })
}

/// Decline 10, with the words that show it.
#[derive(Clone, Copy, Debug, PartialEq, Eq)]
pub enum SequenceClause {
    /// "the lower-alias bank's sequence is invalid"
    LowerInvalid { bank: Bank, word: u32 },
    /// "a reset would choose the other bank"; the words are bank 1's and bank 2's.
    OtherChosen {
        bank: Bank,
        reason: Reason,
        words: [u32; 2],
    },
    /// "PFSWAP differs from BFSWAP"
    SwapsDiffer { nvmcon: u32 },
    /// "the other bank's sequence word is invalid with no bit position at 1 in both halves"
    OtherDisjoint { bank: Bank, word: u32 },
}

/// None where an update start goes on to decline 11. Both banks have their length.
pub fn sequence_clause(
    geometry: &Geometry,
    device: &Device,
    banks: &Banks,
) -> Option<SequenceClause> {
    let (lower, nvmcon) = (device.lower_alias_bank(), device.registers[NVMCON]);
    let word = |bank: Bank| banks.words(bank)[geometry.sequence_index()];
    let (own, other) = (word(lower), word(lower.other()));
    if !valid(own) {
        return Some(SequenceClause::LowerInvalid {
            bank: lower,
            word: own,
        });
    }
    let choice = reset_choice(geometry, banks);
    if choice.bank != lower {
        return Some(SequenceClause::OtherChosen {
            bank: choice.bank,
            reason: choice.reason,
            words: [word(Bank::One), word(Bank::Two)],
        });
    }
    if device.con(PFSWAP) != device.con(BFSWAP) {
        return Some(SequenceClause::SwapsDiffer { nvmcon });
    }
    // "a torn erase could make it valid"
    let doubtful = !valid(other) && halves_disjoint(other);
    doubtful.then_some(SequenceClause::OtherDisjoint {
        bank: lower.other(),
        word: other,
    })
}
