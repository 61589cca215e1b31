//! Decline 3: the clause by which a device record is impossible.

use super::size_clause;
use super::windows::{is_in, program_page, protects, region_bytes, windows};
use crate::nvmcon::{LVDERR, WRERR};
use crate::register::{NVMADDR, NVMBWP, NVMCON, NVMCON2, NVMPWP};
use crate::{Device, Geometry};

/// The registers that have bits which are not implemented, and their masks. NVMKEY has no mask but a clause of its own.
pub(super) const MASKS: [(u32, u32); 4] = [
    (NVMCON, 0xF0CF),
    (NVMPWP, 0x80FF_FFFF),
    (NVMBWP, 0x9FDF),
    (NVMCON2, 0xF01F_B3C0),
];

/// NVMBWP: "bit 6 always 1".
const BIT_SIX: u32 = 1 << 6;

/// The field NVMOP of NVMCON.
pub(super) const NVMOP: u32 = 0xF;

/// A clause of decline 3, in the order of the paper's sentence, with the numbers that show it.
#[derive(Clone, Copy, Debug, PartialEq, Eq, Hash)]
pub enum DeviceClause {
    /// "an unimplemented bit set": in a register other than NVMKEY.
    UnimplementedBit {
        /// The number of the first such register.
        register: u32,
        /// What it holds.
        value: u32,
    },
    /// "NVMBWP bit 6 clear".
    BitSixClear {
        /// What NVMBWP holds.
        nvmbwp: u32,
    },
    /// "NVMKEY not 0".
    KeyNotZero {
        /// What NVMKEY holds.
        nvmkey: u32,
    },
    /// "key step above 3".
    KeyStepAboveThree {
        /// The key step.
        keystep: u32,
    },
    /// "WR = 0 with step number not 0".
    StepAtRest {
        /// The step number.
        step: u32,
    },
    /// What was launched is not "all 0 while WR is 0" (W-209).
    LaunchedAtRest {
        /// The register, NVMADDR to NVMSRCADDR, of the first launched value that is not 0.
        register: u32,
        /// That value.
        value: u32,
    },
    /// "WR = 1 with key step not 0".
    KeyStepRunning {
        /// The key step.
        keystep: u32,
    },
    /// WR = 1 with "WRERR = 0".
    NoWriteError {
        /// What NVMCON holds.
        nvmcon: u32,
    },
    /// WR = 1 with "LVDERR = 1".
    LowVoltageError {
        /// What NVMCON holds.
        nvmcon: u32,
    },
    /// WR = 1 with an NVMOP "for which no steps begin": 0, 1 or 8 to 15.
    NoOperation {
        /// What NVMCON holds.
        nvmcon: u32,
    },
    /// WR = 1 with a launched target of NVMOP 2 to 4 that is "outside the four windows".
    TargetOutside {
        /// The launched NVMADDR.
        address: u32,
    },
    /// WR = 1 with a launched target of NVMOP 2 to 4 "in a protected program page".
    TargetProtected {
        /// The launched NVMADDR.
        address: u32,
        /// What NVMPWP holds.
        nvmpwp: u32,
    },
    /// WR = 1 with NVMOP 5 to 7 and a protected page in a region that it erases.
    RegionProtected {
        /// NVMOP.
        nvmop: u32,
        /// What NVMPWP holds.
        nvmpwp: u32,
    },
    /// WR = 1 with "step number not below its length".
    StepPastEnd {
        /// NVMOP.
        nvmop: u32,
        /// The step number.
        step: u32,
        /// How many steps the operation has.
        length: u32,
    },
}

/// The first clause by which a device record is impossible.
///
/// None where no call is declined by 3: the record is possible, or the sizes are out of range, by which every call is declined first.
pub fn device_clause(geometry: Geometry, device: &Device) -> Option<DeviceClause> {
    if size_clause(geometry).is_some() {
        return None;
    }
    of_any(device).or_else(|| {
        if device.operation_runs() {
            while_running(geometry, device)
        } else {
            at_rest(device)
        }
    })
}

/// Whatever WR is.
fn of_any(device: &Device) -> Option<DeviceClause> {
    let (nvmbwp, nvmkey, keystep) = (device.nvmbwp, device.nvmkey, device.keystep);
    for (register, mask) in MASKS {
        match device.register(register) {
            Some(value) if value & !mask != 0 => {
                return Some(DeviceClause::UnimplementedBit { register, value });
            }
            _ => {}
        }
    }
    if nvmbwp & BIT_SIX == 0 {
        return Some(DeviceClause::BitSixClear { nvmbwp });
    }
    if nvmkey != 0 {
        return Some(DeviceClause::KeyNotZero { nvmkey });
    }
    (keystep > 3).then_some(DeviceClause::KeyStepAboveThree { keystep })
}

fn at_rest(device: &Device) -> Option<DeviceClause> {
    let step = device.step;
    if step != 0 {
        return Some(DeviceClause::StepAtRest { step });
    }
    let mut launched = (NVMADDR..).zip(device.launched.numbers());
    let (register, value) = launched.find(|(_, value)| *value != 0)?;
    Some(DeviceClause::LaunchedAtRest { register, value })
}

fn while_running(geometry: Geometry, device: &Device) -> Option<DeviceClause> {
    let (nvmcon, keystep) = (device.nvmcon, device.keystep);
    if keystep != 0 {
        return Some(DeviceClause::KeyStepRunning { keystep });
    }
    if nvmcon & WRERR == 0 {
        return Some(DeviceClause::NoWriteError { nvmcon });
    }
    if nvmcon & LVDERR != 0 {
        return Some(DeviceClause::LowVoltageError { nvmcon });
    }
    let nvmop = nvmcon & NVMOP;
    let Some(length) = steps(geometry, nvmop) else {
        return Some(DeviceClause::NoOperation { nvmcon });
    };
    let step = device.step;
    let past_end = DeviceClause::StepPastEnd {
        nvmop,
        step,
        length,
    };
    target(geometry, device, nvmop).or((step >= length).then_some(past_end))
}

/// The steps of an operation; none where NVMOP begins none.
fn steps(geometry: Geometry, nvmop: u32) -> Option<u32> {
    let page = 8 * geometry.q;
    match nvmop {
        2 => Some(1),
        3 => Some(geometry.q),
        4 => Some(page),
        5 | 6 => Some(page * geometry.p),
        7 => Some(2 * page * geometry.p),
        _ => None,
    }
}

/// W-209: "3 judges the launched target". Rounding its address down leaves it in its page.
fn target(geometry: Geometry, device: &Device, nvmop: u32) -> Option<DeviceClause> {
    let (address, nvmpwp) = (device.launched.nvmaddr, device.nvmpwp);
    // PWP protects the pages from the lowest offset on, so a region's first page is protected where any is.
    let first_page = match nvmop {
        5 | 7 => Some(0),
        6 => Some(region_bytes(geometry)),
        _ => None,
    };
    if let Some(offset) = first_page {
        let clause = DeviceClause::RegionProtected { nvmop, nvmpwp };
        return protects(nvmpwp, offset).then_some(clause);
    }
    if !is_in(&windows(geometry), address) {
        return Some(DeviceClause::TargetOutside { address });
    }
    let offset = program_page(geometry, address)?;
    let clause = DeviceClause::TargetProtected { address, nvmpwp };
    protects(nvmpwp, offset).then_some(clause)
}
