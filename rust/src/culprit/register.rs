//! Decline 4: registers and forms.

use std::fmt;

use super::Culprit;
use crate::form::{INVERT, PLAIN};
use crate::register::{NAMES, NVMKEY};

/// A clause of decline 4.
#[derive(Clone, Copy, Debug, PartialEq, Eq, Hash)]
pub enum RegisterClause {
    /// "A register number above 10".
    Register(u32),
    /// "a form above 3".
    Form(u32),
    /// "a form other than 0 for NVMKEY".
    KeyForm(u32),
}

/// Decline 4 of a store. A register read is as a plain store to it.
pub(super) fn register_culprit(register: u32, form: u32) -> Option<Culprit> {
    let clause = if register as usize >= NAMES.len() {
        RegisterClause::Register(register)
    } else if form > INVERT {
        RegisterClause::Form(form)
    } else if register == NVMKEY && form != PLAIN {
        RegisterClause::KeyForm(form)
    } else {
        return None;
    };
    Some(Culprit::Register(clause))
}

/// The name of a register.
pub(super) fn name(register: u32) -> &'static str {
    let name = NAMES.get(register as usize);
    name.copied().unwrap_or("no register")
}

impl fmt::Display for RegisterClause {
    fn fmt(&self, f: &mut fmt::Formatter<'_>) -> fmt::Result {
        match self {
            RegisterClause::Register(register) => {
                write!(f, "the register is {register}, not 0 to 10")
            }
            RegisterClause::Form(form) => write!(f, "the form is {form}, not 0 to 3"),
            RegisterClause::KeyForm(form) => {
                write!(f, "the form is {form}, and NVMKEY has form 0 only")
            }
        }
    }
}
