//! Declines 5 and 6: what is tried while an operation runs, and a step while none does.

use std::fmt;

use super::action::{action, Action};
use super::register::name;
use super::Culprit;
use crate::register::{NVMADDR, NVMSRCADDR};
use crate::{Device, Geometry};

/// What is tried while an operation runs.
#[derive(Clone, Copy, Debug, PartialEq, Eq, Hash)]
pub enum Attempt {
    /// A store.
    Store {
        /// The number of its register.
        register: u32,
    },
    /// A start-up.
    StartUp,
    /// An update start.
    UpdateStart,
    /// A turn whose action is a store.
    Turn {
        /// The turn's place.
        place: u32,
        /// The number of the store's register.
        register: u32,
    },
}

/// Decline 5.
pub(super) fn while_running(device: &Device, attempt: Attempt) -> Option<Culprit> {
    let nvmcon = device.nvmcon;
    let running = device.operation_runs() && !is_load(attempt);
    running.then_some(Culprit::Running { attempt, nvmcon })
}

/// W-209: "While WR is set, stores to NVMADDR, NVMDATA0 to 3 and NVMSRCADDR are accepted."
fn is_load(attempt: Attempt) -> bool {
    match attempt {
        Attempt::Store { register } | Attempt::Turn { register, .. } => {
            (NVMADDR..=NVMSRCADDR).contains(&register)
        }
        Attempt::StartUp | Attempt::UpdateStart => false,
    }
}

/// Decline 6, for a step by itself or of a turn's place.
pub(super) fn while_idle(device: &Device, place: Option<u32>) -> Option<Culprit> {
    let (idle, nvmcon) = (!device.operation_runs(), device.nvmcon);
    idle.then_some(Culprit::Idle { place, nvmcon })
}

/// Declines 13, 5 and 6 of a turn, for sizes that are in range. At the total it does nothing.
pub(super) fn turn_culprit(geometry: Geometry, device: &Device, place: u32) -> Option<Culprit> {
    let total = geometry.script_bytes().ok()? as u32 / 8;
    if place >= total {
        return (place > total).then_some(Culprit::Place { place, total });
    }
    match action(geometry, place) {
        Action::Store(register) => while_running(device, Attempt::Turn { place, register }),
        Action::Step => while_idle(device, Some(place)),
    }
}

pub(super) fn write_running(
    f: &mut fmt::Formatter<'_>,
    attempt: Attempt,
    nvmcon: u32,
) -> fmt::Result {
    match attempt {
        Attempt::Store { register } => write!(f, "a store to {}", name(register)),
        Attempt::StartUp => f.write_str("a start-up"),
        Attempt::UpdateStart => f.write_str("an update start"),
        Attempt::Turn { place, register } => {
            write!(
                f,
                "the action at place {place}, a store to {},",
                name(register)
            )
        }
    }?;
    write!(f, " with WR = 1: NVMCON is 0x{nvmcon:08X}")
}

pub(super) fn write_idle(
    f: &mut fmt::Formatter<'_>,
    place: Option<u32>,
    nvmcon: u32,
) -> fmt::Result {
    match place {
        None => f.write_str("a step"),
        Some(place) => write!(f, "the action at place {place}, a step,"),
    }?;
    write!(f, " with WR = 0: NVMCON is 0x{nvmcon:08X}")
}
