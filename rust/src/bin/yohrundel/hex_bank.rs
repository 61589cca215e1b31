//! A bank as Intel HEX: its boot pages at the lower boot alias, its program pages at the lower program region.

use std::ffi::OsStr;

use yohrundel::{Decline, Geometry};

use crate::failure::Failure;
use crate::hex_records::{
    hex_line, HexRecord, DATA, END, LINEAR_ADDRESS, LINEAR_START, SEGMENT_ADDRESS, SEGMENT_START,
};

/// The first bytes of the lower boot alias and of the lower program region.
const BOOT: u32 = 0x1FC0_0000;
const PROGRAM: u32 = 0x1D00_0000;

/// The bytes of a data record that is written. A page is a multiple of it.
const WIDTH: usize = 16;

/// What a byte is that no record gives, and what is left out where a whole page has it.
const BLANK: u8 = 0xFF;

/// Pages of one kind: their addresses, and where the first of them stands in the bank.
struct Window {
    first: u32,
    bytes: u32,
    index: u32,
}

impl Window {
    fn last(&self) -> u32 {
        self.first + self.bytes - 1
    }

    /// Where the byte of an address stands in the bank.
    fn index_of(&self, address: u32) -> Option<usize> {
        let offset = address.checked_sub(self.first)?;
        (offset < self.bytes).then_some((self.index + offset) as usize)
    }
}

/// The windows of a bank by ascending addresses.
fn windows(geometry: Geometry) -> Result<[Window; 2], Decline> {
    let page_bytes = page_bytes(geometry)? as u32;
    let boot_bytes = geometry.b * page_bytes;
    let window = |first, bytes, index| Window {
        first,
        bytes,
        index,
    };
    Ok([
        window(PROGRAM, geometry.p * page_bytes, boot_bytes),
        window(BOOT, boot_bytes, 0),
    ])
}

fn page_bytes(geometry: Geometry) -> Result<usize, Decline> {
    Ok(4 * geometry.page_words()?)
}

/// The bytes of a bank from the text of a file; those that no record gives are all ones.
pub fn read(geometry: Geometry, path: &OsStr, text: &[u8]) -> Result<Vec<u8>, Failure> {
    let bytes = 4 * geometry.bank_words()?;
    let mut reader = Reader {
        windows: windows(geometry)?,
        bytes: vec![BLANK; bytes],
        given: vec![0; bytes],
        base: 0,
        ended: false,
    };
    let read = reader.lines(text);
    read.map_err(|(line, reason)| Failure::line(path, line, reason))?;
    Ok(reader.bytes)
}

struct Reader {
    windows: [Window; 2],
    bytes: Vec<u8>,
    /// The line that gives each byte, 0 where none does.
    given: Vec<usize>,
    /// What is added to the addresses of data records: a segment, all of which lie below the bank, or the upper half of an address.
    base: u32,
    /// The end record has been read.
    ended: bool,
}

impl Reader {
    /// Reads all lines. The first that is not understood has a number, from 1, and a reason.
    fn lines(&mut self, text: &[u8]) -> Result<(), (usize, String)> {
        let mut last = 1;
        for (number, line) in (1..).zip(text.split(|byte| *byte == b'\n')) {
            let line = line.trim_ascii();
            if !line.is_empty() {
                last = number;
                self.line(number, line).map_err(|reason| (number, reason))?;
            }
        }
        if self.ended {
            Ok(())
        } else {
            Err((last, String::from("no end record follows it")))
        }
    }

    fn line(&mut self, number: usize, line: &[u8]) -> Result<(), String> {
        if self.ended {
            return Err(String::from("it follows the end record"));
        }
        let record = HexRecord::read(line)?;
        match record.kind {
            DATA => self.data(number, &record)?,
            END => {
                record.exactly::<0>()?;
                self.ended = true;
            }
            SEGMENT_ADDRESS => self.base = upper(&record)? << 4,
            LINEAR_ADDRESS => self.base = upper(&record)? << 16,
            SEGMENT_START | LINEAR_START => {
                record.exactly::<4>()?;
            }
            other => return Err(format!("there is no record of type {other:02X}")),
        }
        Ok(())
    }

    fn data(&mut self, line: usize, record: &HexRecord) -> Result<(), String> {
        let first = self.base + u32::from(record.address);
        for (number, byte) in (0..).zip(&record.data) {
            let address = first.wrapping_add(number);
            let mut indices = self.windows.iter().map(|window| window.index_of(address));
            let index = indices.find_map(|index| index);
            let index = index.ok_or_else(|| self.outside(address))?;
            match self.given[index] {
                0 => (self.bytes[index], self.given[index]) = (*byte, line),
                before => {
                    let twice = format!("it gives the byte at 0x{address:08X} once more");
                    return Err(format!("{twice}, after line {before}"));
                }
            }
        }
        Ok(())
    }

    fn outside(&self, address: u32) -> String {
        let [program, boot] = &self.windows;
        let range = |window: &Window| format!("0x{:08X} to 0x{:08X}", window.first, window.last());
        let (boot, program) = (range(boot), range(program));
        format!("the address 0x{address:08X} is not in {boot} or {program}")
    }
}

/// The upper part of an address.
fn upper(record: &HexRecord) -> Result<u32, String> {
    Ok(u16::from_be_bytes(record.exactly()?).into())
}

/// The bytes of a bank as a text, by ascending addresses and without the pages that are blank.
pub fn write(geometry: Geometry, bank: &[u8]) -> Result<String, Decline> {
    let (page_bytes, mut writer) = (page_bytes(geometry)?, Writer::default());
    for window in windows(geometry)? {
        let bytes = &bank[window.index as usize..][..window.bytes as usize];
        for (number, page) in bytes.chunks(page_bytes).enumerate() {
            if page.iter().any(|byte| *byte != BLANK) {
                writer.page(window.first + (number * page_bytes) as u32, page);
            }
        }
    }
    Ok(writer.text + &hex_line(END, 0, &[]))
}

#[derive(Default)]
struct Writer {
    text: String,
    /// The upper half of the addresses of the next data records.
    upper: u32,
}

impl Writer {
    /// Writes a page from an address on, which is a multiple of the width of a record.
    fn page(&mut self, first: u32, page: &[u8]) {
        for (address, data) in (first..).step_by(WIDTH).zip(page.chunks(WIDTH)) {
            let upper = address >> 16;
            if upper != self.upper {
                self.upper = upper;
                self.text += &hex_line(LINEAR_ADDRESS, 0, &(upper as u16).to_be_bytes());
            }
            self.text += &hex_line(DATA, address as u16, data);
        }
    }
}
