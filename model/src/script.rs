//! The service script: records, decline 14 and the play program.

use std::fmt::Write;

use crate::device::{Device, NVMCON, REGISTERS};
use crate::flash::{reset, step};
use crate::geometry::{Banks, Geometry, ALL_ONES};
use crate::store::{store, INVERT};
use crate::{Answer, Refusal};

/// The play program's limit in bytes.
pub const BYTE_LIMIT: usize = 65_536;

/// Q=B=P=1.
const PLAY_NUMBERS: [u32; 3] = [1, 1, 1];

#[derive(Clone, Copy, Debug, PartialEq, Eq)]
pub enum Record {
    Store { register: u8, form: u8, value: u32 },
    Step,
    Reset { kind: u8 },
}

impl Record {
    pub fn bytes(&self) -> [u8; 8] {
        let (kind, second, form, value) = match *self {
            Record::Store {
                register,
                form,
                value,
            } => (0, register, form, value),
            Record::Step => (1, 0, 0, 0),
            Record::Reset { kind } => (2, kind, 0, 0),
        };
        let value = value.to_le_bytes();
        [
            kind, second, form, 0, value[0], value[1], value[2], value[3],
        ]
    }
}

/// The records of a script, or decline 14.
pub fn records(bytes: &[u8]) -> Answer<Vec<Record>> {
    if !bytes.len().is_multiple_of(8) {
        return Err(Refusal::Script);
    }
    let parsed: Option<Vec<Record>> = bytes.chunks_exact(8).map(record).collect();
    parsed.ok_or(Refusal::Script)
}

/// "Unused bytes are 0".
fn record(bytes: &[u8]) -> Option<Record> {
    let value = u32::from_le_bytes([bytes[4], bytes[5], bytes[6], bytes[7]]);
    let (register, form) = (bytes[1], bytes[2]);
    if bytes[3] != 0 {
        return None;
    }
    match bytes[0] {
        0 if (register as usize) < REGISTERS && u32::from(form) <= INVERT => Some(Record::Store {
            register,
            form,
            value,
        }),
        1 if register == 0 && form == 0 && value == 0 => Some(Record::Step),
        2 if register <= 2 && form == 0 && value == 0 => Some(Record::Reset { kind: register }),
        _ => None,
    }
}

/// What the play program prints for its input.
pub fn play(bytes: &[u8]) -> String {
    if bytes.len() > BYTE_LIMIT {
        return refused_script();
    }
    match records(bytes) {
        Ok(records) => play_on_the_bench(&records),
        Err(_) => refused_script(),
    }
}

fn refused_script() -> String {
    format!("{}\n", Refusal::Script.number())
}

/// "all ones but bank 1's sequence word 0xFFFE0001, no SRAM, after power-on".
fn play_on_the_bench(records: &[Record]) -> String {
    let geometry = Geometry {
        row_quads: 1,
        boot_pages: 1,
        program_pages: 1,
    };
    let mut one = vec![ALL_ONES; geometry.bank_words() as usize];
    let mut two = one.clone();
    one[geometry.sequence_index()] = 0xFFFE_0001;
    let mut banks = Banks {
        one: &mut one,
        two: &mut two,
    };
    let mut device = Device::reset_values();
    play_records(PLAY_NUMBERS, &mut device, &mut banks, &[], records)
}

/// Plays records on a sign of any sizes; gives what is printed.
pub fn play_records(
    numbers: [u32; 3],
    device: &mut Device,
    banks: &mut Banks,
    sram: &[u32],
    records: &[Record],
) -> String {
    let mut text = String::new();
    for (number, record) in records.iter().enumerate() {
        let (answer, event) = match play_record(numbers, *device, banks, sram, record) {
            Ok((after, event)) => {
                *device = after;
                (0, event)
            }
            Err(refusal) => (refusal.number(), false),
        };
        let con = device.registers[NVMCON];
        // Writing to a string does not fail.
        let _ = writeln!(text, "{number} {answer} {con:08X} {}", u32::from(event));
    }
    text
}

/// The device after a record, and whether there was an event. "Resets use mask 0."
pub fn play_record(
    numbers: [u32; 3],
    device: Device,
    banks: &mut Banks,
    sram: &[u32],
    record: &Record,
) -> Answer<(Device, bool)> {
    match *record {
        Record::Store {
            register,
            form,
            value,
        } => store(numbers, device, register.into(), form.into(), value),
        Record::Step => step(numbers, device, banks, sram),
        Record::Reset { kind } => {
            let after = reset(numbers, device, banks, sram, kind.into(), [0; 4])?;
            Ok((after.device, false))
        }
    }
}

/// A script in a bundle: its length in four bytes, little-endian, then its bytes.
pub fn bundled(script: &[u8]) -> Vec<u8> {
    let mut bytes = (script.len() as u32).to_le_bytes().to_vec();
    bytes.extend_from_slice(script);
    bytes
}

/// The scripts of a bundle that are there whole.
pub fn unbundled(mut bytes: &[u8]) -> Vec<&[u8]> {
    let mut scripts = Vec::new();
    while let Some((length, rest)) = bytes.split_first_chunk() {
        let length = u32::from_le_bytes(*length) as usize;
        if rest.len() < length {
            break;
        }
        let (script, after) = rest.split_at(length);
        scripts.push(script);
        bytes = after;
    }
    scripts
}
