//! Files as bytes and as words.

use std::ffi::OsStr;
use std::fs::{self, File};
use std::io::{self, Read};
use std::os::unix::ffi::OsStrExt;

use yohrundel::{Decline, Geometry};

use crate::failure::Failure;
use crate::hex_bank;
use crate::wording::counted;

/// The bytes of a file, of standard input where its name is `-`; at most so many from its front.
pub fn bytes(path: &OsStr, most: usize) -> Result<Vec<u8>, Failure> {
    read(path, most as u64).map_err(|error| Failure::file(path, error))
}

fn read(path: &OsStr, most: u64) -> io::Result<Vec<u8>> {
    let mut bytes = Vec::new();
    if path == "-" {
        io::stdin().lock().take(most).read_to_end(&mut bytes)?;
    } else {
        File::open(path)?.take(most).read_to_end(&mut bytes)?;
    }
    Ok(bytes)
}

/// What the name of a file of Intel HEX ends in, in small or capital letters.
const HEX_ENDS: [&[u8]; 3] = [b".hex", b".ihex", b".ihx"];

/// Whether a file is Intel HEX, by its name.
fn is_hex(path: &OsStr) -> bool {
    let name = path.as_bytes().to_ascii_lowercase();
    HEX_ENDS.iter().any(|end| name.ends_with(end))
}

/// A bank or an image: a file of words, lowest byte first, exactly one bank long, or one of Intel HEX.
pub fn bank(geometry: Geometry, path: &OsStr) -> Result<Vec<u32>, Failure> {
    let length = 4 * geometry.bank_words()?;
    if is_hex(path) {
        let text = bytes(path, usize::MAX)?;
        return Ok(words(&hex_bank::read(geometry, path, &text)?));
    }
    let bytes = bytes(path, length + 1)?;
    if bytes.len() != length {
        let given = given_length(path, bytes.len(), length);
        let cause = format!("{path:?} has {given}, not the {length} of a bank");
        return Err(Failure::declined(Decline::Length, cause));
    }
    Ok(words(&bytes))
}

/// How long a file is of which so many bytes were read, at most one more than are asked.
fn given_length(path: &OsStr, read: usize, asked: usize) -> String {
    let known = fs::metadata(path).ok().filter(fs::Metadata::is_file);
    match known {
        Some(known) => counted(known.len() as usize, "byte"),
        None if read > asked => format!("more than {asked} bytes"),
        None => counted(read, "byte"),
    }
}

/// The words of a bank as a file has them.
pub fn bank_bytes(words: &[u32]) -> Vec<u8> {
    words.iter().flat_map(|word| word.to_le_bytes()).collect()
}

/// Writes a bank to a file, in the format that its name says.
pub fn write_bank(geometry: Geometry, path: &OsStr, words: &[u32]) -> Result<(), Failure> {
    let mut bytes = bank_bytes(words);
    if is_hex(path) {
        bytes = hex_bank::write(geometry, &bytes)?.into();
    }
    write(path, &bytes)
}

/// Writes a file, which is made where there is none.
pub fn write(path: &OsStr, bytes: &[u8]) -> Result<(), Failure> {
    fs::write(path, bytes).map_err(|error| Failure::unwritten(path, error))
}

fn words(bytes: &[u8]) -> Vec<u32> {
    let word = |four: &[u8]| u32::from_le_bytes([four[0], four[1], four[2], four[3]]);
    bytes.chunks_exact(4).map(word).collect()
}

#[cfg(test)]
#[test]
fn lowest_byte_first() {
    let bytes = [1, 2, 3, 4, 5, 6, 7, 8];
    assert_eq!(words(&bytes), [0x0403_0201, 0x0807_0605]);
    assert_eq!(bank_bytes(&words(&bytes)), bytes);
}
