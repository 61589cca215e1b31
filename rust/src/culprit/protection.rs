//! Decline 12 of an update start: the registers that protect what it writes.

use std::fmt;

use super::windows::{pwp, region_bytes};
use super::Culprit;
use crate::{Device, Geometry};

/// The bit UBWPULOCK of NVMBWP.
const UBWPULOCK: u32 = 1 << 7;

/// A clause of decline 12.
#[derive(Clone, Copy, Debug, PartialEq, Eq, Hash)]
pub enum ProtectionClause {
    /// "UBWPULOCK = 0": the protection of the upper boot pages is locked.
    UpperLocked {
        /// What NVMBWP holds.
        nvmbwp: u32,
    },
    /// "PWP at least P×128×Q": it protects a page of the upper program region.
    UpperProtected {
        /// What NVMPWP holds.
        nvmpwp: u32,
        /// P×128×Q.
        bytes: u32,
    },
}

/// Decline 12, for sizes that are in range.
pub(super) fn protection_culprit(geometry: Geometry, device: &Device) -> Option<Culprit> {
    let (nvmbwp, nvmpwp, bytes) = (device.nvmbwp, device.nvmpwp, region_bytes(geometry));
    let clause = if nvmbwp & UBWPULOCK == 0 {
        ProtectionClause::UpperLocked { nvmbwp }
    } else if pwp(nvmpwp) >= bytes {
        ProtectionClause::UpperProtected { nvmpwp, bytes }
    } else {
        return None;
    };
    Some(Culprit::Protection(clause))
}

impl fmt::Display for ProtectionClause {
    fn fmt(&self, f: &mut fmt::Formatter<'_>) -> fmt::Result {
        match self {
            ProtectionClause::UpperLocked { nvmbwp } => {
                write!(f, "NVMBWP is 0x{nvmbwp:08X}: UBWPULOCK = 0")
            }
            ProtectionClause::UpperProtected { nvmpwp, bytes } => {
                write!(
                    f,
                    "NVMPWP is 0x{nvmpwp:08X}: PWP is not below 0x{bytes:06X}"
                )
            }
        }
    }
}
