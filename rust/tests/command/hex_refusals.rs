//! Files of Intel HEX that are not understood: each refusal with its line and what is wrong in it.

use std::sync::atomic::{AtomicUsize, Ordering};

use crate::hex_text::{end, record, upper};
use crate::run::run;
use crate::scripts::named;

/// How many files there are; the tests run side by side.
static FILES: AtomicUsize = AtomicUsize::new(0);

/// An image of a sign with Q = 1, B = 2 and P = 3 that is refused at a line.
fn refused(lines: &[String], line: usize, reason: &str) {
    let number = FILES.fetch_add(1, Ordering::Relaxed);
    let path = named(
        &format!("refused-{number}.hex"),
        lines.join("\n").as_bytes(),
    );
    let place = format!("line {line} of {path:?}");
    let expected = format!("start: {place}: {reason}; try yohrundel start --help");
    assert_eq!(run(&["start", "1", "2", "3", &path]).reason(2), expected);
}

/// A line between good ones, the second of the file.
fn refused_line(line: &str, reason: &str) {
    refused(&[upper(0x1D00), line.into(), end()], 2, reason);
}

#[test]
fn lines_that_are_no_records() {
    refused_line("00000001FF", "it has no colon in front");
    refused_line("; a comment", "it has no colon in front");
    refused_line("\u{FEFF}:00000001FF", "it has no colon in front");
    refused_line(":0000000G", "'G' is no hexadecimal digit");
    refused_line(":00000001FF :", "' ' is no hexadecimal digit");
    refused_line(":00000001F", "it ends inside a byte");
    refused_line(":", "it has 0 bytes, but a record has at least 5");
    refused_line(":00", "it has 1 byte, but a record has at least 5");
    refused_line(":00000001", "it has 4 bytes, but a record has at least 5");
}

#[test]
fn lengths() {
    let reason = "it has 2 bytes of data, but its length is 3";
    refused_line(":03000000010200", reason);
    let reason = "it has 1 byte of data, but its length is 0";
    refused_line(":0000000001FF", reason);
    for (kind, right) in [(1, 0), (2, 2), (3, 4), (4, 2), (5, 4)] {
        for length in (0..6).filter(|length| *length != right) {
            let bytes = if length == 1 { "byte" } else { "bytes" };
            let reason = format!("it has {length} {bytes} of data, but type 0{kind} has {right}");
            refused_line(&record(kind, 0, &vec![0; length]), &reason);
        }
    }
}

/// A digit of a good record is changed; the checksum is the one that the other bytes need.
#[test]
fn checksums() {
    // 01 + 05 + 07 is 0D, and with F3 it is 100.
    refused_line(":0100050007F2", "its checksum is F2, not F3");
    refused_line(":0100050007F4", "its checksum is F4, not F3");
    refused_line(":0100050006F3", "its checksum is F3, not F4");
    refused_line(":0101050007F3", "its checksum is F3, not F2");
    refused_line(":00000001FE", "its checksum is FE, not FF");
    refused_line(":0000000001", "its checksum is 01, not 00");
}

#[test]
fn types() {
    for kind in [6, 7, 0x10, 0x80, 0xFF] {
        let reason = format!("there is no record of type {kind:02X}");
        refused_line(&record(kind, 0, &[]), &reason);
    }
}

/// The addresses just before and just behind the pages of either kind, and in the upper windows.
#[test]
fn addresses_outside_a_bank() {
    let windows = "0x1FC00000 to 0x1FC000FF or 0x1D000000 to 0x1D00017F";
    for (address, length, outside) in [
        (0x1CFF_FFFF, 1, 0x1CFF_FFFF_u32),
        (0x1CFF_FFFF, 9, 0x1CFF_FFFF),
        (0x1D00_0180, 1, 0x1D00_0180),
        (0x1D00_0170, 17, 0x1D00_0180),
        (0x1FBF_FFF0, 32, 0x1FBF_FFF0),
        (0x1FC0_0100, 1, 0x1FC0_0100),
        (0x1FC0_00FF, 2, 0x1FC0_0100),
        (0x1FC2_0000, 4, 0x1FC2_0000),
        (0x9D00_0000, 4, 0x9D00_0000),
        (0xFFFF_FFFF, 2, 0xFFFF_FFFF),
        (0, 1, 0),
    ] {
        let data = record(0, address & 0xFFFF, &vec![0; length]);
        let reason = format!("the address 0x{outside:08X} is not in {windows}");
        refused(
            &[upper(address >> 16), String::new(), data, end()],
            3,
            &reason,
        );
    }
    let first = record(0, 0x1234, &[0]);
    let reason = format!("the address 0x00001234 is not in {windows}");
    refused(&[first, end()], 1, &reason);
}

/// A segment ends below 0x110000, so that no byte of a bank is in one.
#[test]
fn segments() {
    let windows = "0x1FC00000 to 0x1FC000FF or 0x1D000000 to 0x1D00017F";
    for (segment, address, outside) in [
        ([0x1D, 0x00], 0x0000, 0x0001_D000),
        ([0x1D, 0x00], 0xFFFF, 0x0002_CFFF),
        ([0xFF, 0xFF], 0xFFFF, 0x0010_FFEF),
    ] {
        let lines = [record(2, 0, &segment), record(0, address, &[0]), end()];
        let reason = format!("the address 0x{outside:08X} is not in {windows}");
        refused(&lines, 2, &reason);
    }
    // A linear address takes its place again.
    let lines = [
        record(2, 0, &[0x1D, 0]),
        upper(0x1D00),
        record(0, 0, &[0]),
        end(),
    ];
    let path = named("segment.hex", lines.join("\n").as_bytes());
    run(&["start", "1", "2", "3", &path]).printed();
}

#[test]
fn bytes_given_twice() {
    let reason = |address: u32, line: usize| {
        format!("it gives the byte at 0x{address:08X} once more, after line {line}")
    };
    let data = |address, length: usize| record(0, address, &vec![0xFF; length]);
    let lines = [upper(0x1D00), data(0, 16), data(0, 16), end()];
    refused(&lines, 3, &reason(0x1D00_0000, 2));
    let lines = [upper(0x1D00), data(16, 16), data(32, 4), data(31, 2), end()];
    refused(&lines, 4, &reason(0x1D00_001F, 2));
    let lines = [upper(0x1D00), data(9, 1), data(8, 16), end()];
    refused(&lines, 3, &reason(0x1D00_0009, 2));
}

#[test]
fn what_follows_the_end() {
    let data = record(0, 0, &[0]);
    for after in [data.as_str(), &end(), "x", ":"] {
        let lines = [upper(0x1D00), end(), String::new(), after.into()];
        refused(&lines, 4, "it follows the end record");
    }
}

/// A file that was cut short is no bank with gaps.
#[test]
fn no_end() {
    let reason = "no end record follows it";
    refused(&[], 1, reason);
    refused(&[upper(0x1D00), record(0, 0, &[0])], 2, reason);
    refused(&[upper(0x1D00), String::new(), String::new()], 1, reason);
}

#[test]
fn files_that_cannot_be_read_or_written() {
    let reason = "\"/no/x.hex\" cannot be read: No such file or directory (os error 2)";
    let ran = run(&["start", "1", "1", "1", "/no/x.hex"]);
    assert_eq!(ran.reason(3), format!("start: {reason}"));
    let reason = "\"/no/x.hex\" cannot be written: No such file or directory (os error 2)";
    for command in ["update 1 1 1", "cut 1 1 1 0 0"] {
        let line = format!("{command} --save2 /no/x.hex");
        let arguments: Vec<&str> = line.split(' ').collect();
        let expected = format!("{}: {reason}", arguments[0]);
        assert_eq!(run(&arguments).reason(3), expected);
    }
}
