//! Decline 14: what is no script.

use std::fmt;

use crate::form::INVERT;
use crate::register::NVMCON2;
use crate::reset_kind::OTHER;

/// The bytes of a record.
pub(super) const RECORD: usize = 8;

/// A clause of decline 14.
#[derive(Clone, Copy, Debug, PartialEq, Eq, Hash)]
pub enum ScriptClause {
    /// "A script whose length isn't a multiple of 8".
    Length {
        /// Its bytes.
        bytes: usize,
    },
    /// The first record that is none.
    Record {
        /// Its number from 0.
        number: usize,
        /// What is wrong with it.
        clause: RecordClause,
    },
}

/// What is wrong with a record.
#[derive(Clone, Copy, Debug, PartialEq, Eq, Hash)]
pub enum RecordClause {
    /// An unknown kind.
    Kind(u8),
    /// An unknown register.
    Register(u8),
    /// An unknown form.
    Form(u8),
    /// An unknown reset kind.
    ResetKind(u8),
    /// "an unused byte not 0".
    UnusedByte {
        /// Which byte of the record, from 0: the first such one.
        byte: usize,
        /// What it is.
        value: u8,
    },
}

/// The first thing by which bytes are no script: their length, or a record.
pub fn script_clause(script: &[u8]) -> Option<ScriptClause> {
    let (records, rest) = script.as_chunks();
    if !rest.is_empty() {
        let bytes = script.len();
        return Some(ScriptClause::Length { bytes });
    }
    let mut clauses = records.iter().map(record_clause).enumerate();
    clauses
        .find_map(|(number, clause)| clause.map(|clause| ScriptClause::Record { number, clause }))
}

/// "kind (0 store, 1 step, 2 reset), register or reset kind, form, 0, value little-endian".
fn record_clause(record: &[u8; RECORD]) -> Option<RecordClause> {
    let [kind, second, form, ..] = *record;
    let unused: &[usize] = match kind {
        0 if u32::from(second) > NVMCON2 => return Some(RecordClause::Register(second)),
        0 if u32::from(form) > INVERT => return Some(RecordClause::Form(form)),
        2 if u32::from(second) > OTHER => return Some(RecordClause::ResetKind(second)),
        0 => &[3],
        1 => &[1, 2, 3, 4, 5, 6, 7],
        2 => &[2, 3, 4, 5, 6, 7],
        _ => return Some(RecordClause::Kind(kind)),
    };
    let byte = *unused.iter().find(|byte| record[**byte] != 0)?;
    let value = record[byte];
    Some(RecordClause::UnusedByte { byte, value })
}

impl fmt::Display for ScriptClause {
    fn fmt(&self, f: &mut fmt::Formatter<'_>) -> fmt::Result {
        match self {
            ScriptClause::Length { bytes: 1 } => f.write_str("1 byte is no multiple of 8"),
            ScriptClause::Length { bytes } => write!(f, "{bytes} bytes are no multiple of 8"),
            ScriptClause::Record { number, clause } => write!(f, "record {number} has {clause}"),
        }
    }
}

impl fmt::Display for RecordClause {
    fn fmt(&self, f: &mut fmt::Formatter<'_>) -> fmt::Result {
        match self {
            RecordClause::Kind(kind) => write!(f, "the kind {kind}, not 0 to 2"),
            RecordClause::Register(register) => write!(f, "the register {register}, not 0 to 10"),
            RecordClause::Form(form) => write!(f, "the form {form}, not 0 to 3"),
            RecordClause::ResetKind(kind) => write!(f, "the reset kind {kind}, not 0 to 2"),
            RecordClause::UnusedByte { byte, value } => {
                write!(f, "0x{value:02X} in its unused byte {byte}, not 0")
            }
        }
    }
}
