//! The operation that runs, in words: what it does, and at which step it is.

use yohrundel::nvmcon::{BFSWAP, PFSWAP};
use yohrundel::{Bank, Decline, Device, Geometry};

use crate::page_names::{page_name, quad_name};

/// NVMOP, bits 3 to 0 of NVMCON, with its values for the operations of an update.
const NVMOP: u32 = 0xF;
const PROGRAM_QUAD: u32 = 2;
const ERASE_PAGE: u32 = 4;

/// Where the lower alias of the boot pages and the lower region of the program pages begin.
const LOWER_BOOT: u32 = 0x1FC0_0000;
const LOWER_PROGRAM: u32 = 0x1D00_0000;

/// From the lower alias of the boot pages to the upper one.
const BOOT_ALIAS: u32 = 0x2_0000;

/// How the part of a bank is named in which a word is.
type Name = fn(Geometry, usize) -> Result<String, Decline>;

/// Which operation runs, and in which step a supply fails now, as the rest of a sentence. What no update does is not named.
pub fn running_operation(geometry: Geometry, device: Device) -> Result<String, Decline> {
    if !device.operation_runs() {
        return Ok(String::from("no operation runs"));
    }
    let (work, name, steps): (_, Name, _) = match device.nvmcon & NVMOP {
        PROGRAM_QUAD => ("programming", quad_name, 1),
        ERASE_PAGE => ("erase", page_name, 8 * geometry.q),
        _ => return Ok(String::from("an operation runs")),
    };
    let (bank, word) = target(geometry, device)?;
    let (bank, part, step) = (bank.number(), name(geometry, word)?, device.step + 1);
    Ok(format!(
        "an operation runs:\n{work} of {part} of bank {bank}, step {step} of {steps}"
    ))
}

/// The bank, and the index in it of a word, at the address that the running operation was launched with.
fn target(geometry: Geometry, device: Device) -> Result<(Bank, usize), Decline> {
    let (address, page_words) = (device.launched.nvmaddr, geometry.page_words()?);
    let (offset, window, swap, first_page) = match address.checked_sub(LOWER_BOOT) {
        Some(offset) => (offset, BOOT_ALIAS, BFSWAP, 0),
        None => {
            let region = 4 * page_words as u32 * geometry.p;
            (address - LOWER_PROGRAM, region, PFSWAP, geometry.b as usize)
        }
    };
    let (is_upper, is_swapped) = (offset >= window, device.nvmcon & swap != 0);
    let bank = if is_upper == is_swapped {
        Bank::One
    } else {
        Bank::Two
    };
    let word = (offset % window / 4) as usize;
    Ok((bank, first_page * page_words + word))
}

#[cfg(test)]
mod tests {
    use super::*;
    use yohrundel::nvmcon::{WR, WREN, WRERR};
    use yohrundel::Operands;

    const RUNS: u32 = WR | WREN | WRERR;

    /// A device of a sign with Q = 2, whose pages have 256 bytes, B = 2 and P = 3.
    fn sentence(nvmcon: u32, nvmaddr: u32, step: u32) -> String {
        let launched = Operands {
            nvmaddr,
            ..Operands::default()
        };
        let device = Device {
            nvmcon,
            step,
            launched,
            ..Device::power_on()
        };
        let geometry = Geometry { q: 2, b: 2, p: 3 };
        running_operation(geometry, device).expect("a sentence")
    }

    fn operation(nvmcon: u32, nvmaddr: u32, step: u32) -> String {
        let sentence = sentence(RUNS | nvmcon, nvmaddr, step);
        let named = sentence.strip_prefix("an operation runs:\n");
        named.expect("a named operation").into()
    }

    /// The first and the last page of each window, with and without a swap.
    #[test]
    fn erases_in_each_window() {
        for (address, page, bank, swapped) in [
            (0x1FC0_0000, "boot page 0", 1, 2),
            (0x1FC0_0100, "boot page 1", 1, 2),
            (0x1FC2_0000, "boot page 0", 2, 1),
            (0x1FC2_01FF, "boot page 1", 2, 1),
            (0x1D00_0000, "program page 0", 1, 2),
            (0x1D00_02FF, "program page 2", 1, 2),
            (0x1D00_0300, "program page 0", 2, 1),
            (0x1D00_05F0, "program page 2", 2, 1),
        ] {
            let text = |bank| format!("erase of {page} of bank {bank}, step 1 of 16");
            assert_eq!(operation(4, address, 0), text(bank));
            assert_eq!(operation(4 | BFSWAP | PFSWAP, address, 0), text(swapped));
        }
    }

    /// Each swap is for its own pages.
    #[test]
    fn one_swap() {
        let boot = |nvmcon| operation(4 | nvmcon, 0x1FC0_0000, 15);
        assert_eq!(
            boot(PFSWAP),
            "erase of boot page 0 of bank 1, step 16 of 16"
        );
        assert_eq!(
            boot(BFSWAP),
            "erase of boot page 0 of bank 2, step 16 of 16"
        );
        let program = |nvmcon| operation(2 | nvmcon, 0x1D00_0010, 0);
        let text =
            |bank| format!("programming of quad 1 of program page 0 of bank {bank}, step 1 of 1");
        assert_eq!(program(BFSWAP), text(1));
        assert_eq!(program(PFSWAP), text(2));
    }

    /// An address is that of any byte of the quad.
    #[test]
    fn quads() {
        for (address, quad) in [
            (0x1FC2_01F0, "quad 15 of boot page 1"),
            (0x1FC2_01FF, "quad 15 of boot page 1"),
            (0x1FC2_0100, "quad 0 of boot page 1"),
            (0x1D00_030F, "quad 0 of program page 0"),
            (0x1D00_0310, "quad 1 of program page 0"),
        ] {
            let text = format!("programming of {quad} of bank 2, step 1 of 1");
            assert_eq!(operation(2, address, 0), text);
        }
    }

    /// Without WR, a row that is programmed, and a region that is erased, which has no address.
    #[test]
    fn operations_without_a_name() {
        assert_eq!(sentence(WREN | 4, 0, 0), "no operation runs");
        assert_eq!(sentence(RUNS | 3, 0x1D00_0000, 1), "an operation runs");
        assert_eq!(sentence(RUNS | 5, 0, 1), "an operation runs");
    }
}
