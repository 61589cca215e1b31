//! Records of Intel HEX, a line each: a colon, and in hexadecimal digits the length of the data, an address, the type, the data and a
//! checksum, with which all bytes add up to 0 modulo 256.

use std::fmt::Write;

use crate::wording::counted;

/// The type of a record with bytes of data.
pub const DATA: u8 = 0;
/// The type of the last record.
pub const END: u8 = 1;
/// The type of a record with the upper 16 bits of an address of 20.
pub const SEGMENT_ADDRESS: u8 = 2;
/// The type of a record with a CPU's start address, in segments.
pub const SEGMENT_START: u8 = 3;
/// The type of a record with the upper 16 bits of an address of 32.
pub const LINEAR_ADDRESS: u8 = 4;
/// The type of a record with a CPU's start address of 32 bits.
pub const LINEAR_START: u8 = 5;

/// A record whose length and checksum are right.
pub struct HexRecord {
    /// Its type.
    pub kind: u8,
    /// The low half of an address.
    pub address: u16,
    /// As many bytes as its length says.
    pub data: Vec<u8>,
}

impl HexRecord {
    /// The record of a line, or why it is none.
    pub fn read(line: &[u8]) -> Result<HexRecord, String> {
        let digits = line.strip_prefix(b":").ok_or("it has no colon in front")?;
        let bytes = bytes(digits)?;
        let [length, high, low, kind, rest @ ..] = &bytes[..] else {
            return Err(too_short(bytes.len()));
        };
        let (checksum, data) = rest.split_last().ok_or_else(|| too_short(bytes.len()))?;
        if data.len() != usize::from(*length) {
            let has = counted(data.len(), "byte");
            return Err(format!("it has {has} of data, but its length is {length}"));
        }
        let right = checksum_of(&bytes[..bytes.len() - 1]);
        if *checksum != right {
            return Err(format!("its checksum is {checksum:02X}, not {right:02X}"));
        }
        Ok(HexRecord {
            kind: *kind,
            address: u16::from_be_bytes([*high, *low]),
            data: data.to_vec(),
        })
    }

    /// The data of a record that has so many bytes of them.
    pub fn exactly<const N: usize>(&self) -> Result<[u8; N], String> {
        let (kind, has) = (self.kind, counted(self.data.len(), "byte"));
        let wrong = |_| format!("it has {has} of data, but type {kind:02X} has {N}");
        self.data.as_slice().try_into().map_err(wrong)
    }
}

fn too_short(bytes: usize) -> String {
    let bytes = counted(bytes, "byte");
    format!("it has {bytes}, but a record has at least 5")
}

/// The bytes of hexadecimal digits, two each.
fn bytes(digits: &[u8]) -> Result<Vec<u8>, String> {
    if let Some(other) = digits.iter().find(|digit| !digit.is_ascii_hexdigit()) {
        let other = char::from(*other);
        return Err(format!("{other:?} is no hexadecimal digit"));
    }
    if !digits.len().is_multiple_of(2) {
        return Err(String::from("it ends inside a byte"));
    }
    let value = |digit: u8| char::from(digit).to_digit(16).unwrap_or(0) as u8;
    let byte = |two: &[u8]| 16 * value(two[0]) + value(two[1]);
    Ok(digits.chunks_exact(2).map(byte).collect())
}

/// The byte with which bytes add up to 0.
fn checksum_of(bytes: &[u8]) -> u8 {
    let sum = bytes
        .iter()
        .fold(0, |sum: u8, byte| sum.wrapping_add(*byte));
    sum.wrapping_neg()
}

/// The line of a record with at most 255 bytes of data.
pub fn hex_line(kind: u8, address: u16, data: &[u8]) -> String {
    let [high, low] = address.to_be_bytes();
    let mut bytes = vec![data.len() as u8, high, low, kind];
    bytes.extend(data);
    bytes.push(checksum_of(&bytes));
    let mut line = String::from(":");
    for byte in bytes {
        let _ = write!(line, "{byte:02X}");
    }
    line + "\n"
}
