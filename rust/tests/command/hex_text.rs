//! A tiny writer and a tiny reader of Intel HEX, apart from the command's: texts of bytes by their addresses.

use std::collections::BTreeMap;

use model::geometry::{Geometry, Kind, Side};

/// A record in capital letters; its bytes add up to 0 modulo 256.
pub fn record(kind: u8, address: u32, data: &[u8]) -> String {
    let front = [data.len() as u8, (address >> 8) as u8, address as u8, kind];
    let bytes = [&front, data].concat();
    let sum: u32 = bytes.iter().map(|byte| u32::from(*byte)).sum();
    let digits: String = bytes.iter().map(|byte| format!("{byte:02X}")).collect();
    format!(":{digits}{:02X}", (256 - sum % 256) % 256)
}

/// The record with the upper half of the addresses that follow.
pub fn upper(half: u32) -> String {
    record(4, 0, &[(half >> 8) as u8, half as u8])
}

pub fn end() -> String {
    String::from(":00000001FF")
}

/// The address of each byte of a bank, boot pages first.
pub fn addresses(geometry: &Geometry) -> Vec<u32> {
    let window = |kind| {
        let first = geometry.window_start(kind, Side::Lower);
        first..first + geometry.window_bytes(kind)
    };
    window(Kind::Boot).chain(window(Kind::Program)).collect()
}

/// What a written text gives at each address. Each record has its checksum, and data records have 16 bytes.
pub fn read(text: &str) -> BTreeMap<u32, u8> {
    let (mut bytes, mut base) = (BTreeMap::new(), 0);
    let lines: Vec<&str> = text.lines().collect();
    let (last, records) = lines.split_last().expect("an end record");
    assert_eq!(*last, end());
    for line in records {
        let digits = line.strip_prefix(':').expect("a colon");
        let numbers: Vec<u8> = (0..digits.len() / 2)
            .map(|byte| u8::from_str_radix(&digits[2 * byte..2 * byte + 2], 16).expect("digits"))
            .collect();
        let [_, high, low, kind, data @ .., _] = &numbers[..] else {
            panic!("{line}");
        };
        let address = u32::from(*high) * 256 + u32::from(*low);
        assert_eq!(*line, record(*kind, address, data));
        match (kind, data) {
            (0, data) => {
                assert_eq!((data.len(), address % 16), (16, 0));
                bytes.extend((base + address..).zip(data.iter().copied()));
            }
            (4, [high, low]) => base = (u32::from(*high) * 256 + u32::from(*low)) << 16,
            _ => panic!("{line}"),
        }
    }
    bytes
}
