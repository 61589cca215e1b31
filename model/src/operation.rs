//! The target of NVMOP: whether steps begin, how many, and the quad of each.

use crate::device::{location_protected, protected, Device};
use crate::geometry::{Bank, Geometry, Kind, Location, Side};

/// What NVMOP and its target lead to, errors set before left aside.
#[derive(Clone, Copy, Debug, PartialEq, Eq)]
pub enum Judgement {
    /// "no launch, no event"
    NoLaunch,
    /// "failure, meaning WRERR = 1, WR = 0, event"
    Failure,
    /// Steps begin; their number.
    Steps(u32),
}

/// Judges NVMOP and the target that an address names.
pub fn judge(geometry: &Geometry, device: &Device, address: u32) -> Judgement {
    let region = geometry.page_quads() * geometry.program_pages;
    match device.nvmop() {
        2 => judge_address(geometry, device, address, 1),
        3 => judge_address(geometry, device, address, geometry.row_quads),
        4 => judge_address(geometry, device, address, geometry.page_quads()),
        5 => judge_failure(region_protected(geometry, device, Side::Lower), region),
        6 => judge_failure(region_protected(geometry, device, Side::Upper), region),
        // "7 both: failure if PWP is not 0"
        7 => judge_failure(device.pwp() != 0, 2 * region),
        _ => Judgement::NoLaunch,
    }
}

fn judge_failure(failure: bool, length: u32) -> Judgement {
    if failure {
        Judgement::Failure
    } else {
        Judgement::Steps(length)
    }
}

/// "Outside the four windows, or in a protected program page: failure".
fn judge_address(geometry: &Geometry, device: &Device, address: u32, length: u32) -> Judgement {
    match geometry.locate(rounded_address(geometry, device, address)) {
        None => Judgement::Failure,
        Some(location) => {
            let program = location.kind == Kind::Program;
            let failure = program && location_protected(geometry, device, location);
            judge_failure(failure, length)
        }
    }
}

/// "failure if any page in it is protected".
fn region_protected(geometry: &Geometry, device: &Device, side: Side) -> bool {
    (0..geometry.program_pages).any(|page| protected(geometry, device, Kind::Program, side, page))
}

/// "NVMADDR is rounded down to 16, 16×Q or 128×Q bytes"; the register keeps its value, and what was launched is unrounded.
pub fn rounded_address(geometry: &Geometry, device: &Device, address: u32) -> u32 {
    let unit = match device.nvmop() {
        3 => geometry.row_bytes(),
        4 => geometry.page_bytes(),
        _ => 16,
    };
    round_down(address, unit)
}

pub fn round_down(address: u32, unit: u32) -> u32 {
    address - address % unit
}

/// The target that the running operation was launched with.
fn launched_address(geometry: &Geometry, device: &Device) -> u32 {
    rounded_address(geometry, device, device.launched.address)
}

/// The quad of the next step of a running operation.
pub fn next_quad(geometry: &Geometry, device: &Device) -> Option<Location> {
    let step = device.step_number;
    let region = geometry.page_quads() * geometry.program_pages;
    match device.nvmop() {
        2..=4 => geometry.locate(launched_address(geometry, device) + 16 * step),
        5 => Some(region_quad(Side::Lower, step)),
        6 => Some(region_quad(Side::Upper, step)),
        // "lower before upper for NVMOP 7"
        7 if step < region => Some(region_quad(Side::Lower, step)),
        7 => Some(region_quad(Side::Upper, step - region)),
        _ => None,
    }
}

fn region_quad(side: Side, step: u32) -> Location {
    Location {
        kind: Kind::Program,
        side,
        offset: 16 * step,
    }
}

/// Whether the running operation targets a bank ("NVMOP 7: both").
pub fn targets(geometry: &Geometry, device: &Device, bank: Bank) -> bool {
    if !device.running() {
        return false;
    }
    match device.nvmop() {
        5 => device.bank_at(Kind::Program, Side::Lower) == bank,
        6 => device.bank_at(Kind::Program, Side::Upper) == bank,
        7 => true,
        _ => match geometry.locate(launched_address(geometry, device)) {
            Some(location) => device.bank_at(location.kind, location.side) == bank,
            None => false,
        },
    }
}
