//! The four windows of the flash, and the word at an address in one of them.

use yohrundel::{Decline, Geometry};

/// A word of the flash.
#[derive(Clone, Copy, Debug, PartialEq, Eq)]
pub struct Location {
    pub window: &'static str,
    /// Its index in the bank that stands in the window.
    pub index: usize,
}

/// The word at an address; decline 8 outside the windows.
pub fn locate(geometry: Geometry, address: u32) -> Result<Location, Decline> {
    let page_bytes = 4 * geometry.page_words()?;
    let boot_bytes = geometry.b as usize * page_bytes;
    let program_bytes = geometry.p as usize * page_bytes;
    // Each with its first address, and its first byte in a bank and its bytes there.
    let windows = [
        ("lower boot alias", 0x1FC0_0000, 0, boot_bytes),
        ("upper boot alias", 0x1FC2_0000, 0, boot_bytes),
        (
            "lower program region",
            0x1D00_0000,
            boot_bytes,
            program_bytes,
        ),
        (
            "upper program region",
            0x1D00_0000 + program_bytes,
            boot_bytes,
            program_bytes,
        ),
    ];
    let found = windows
        .into_iter()
        .find_map(|(window, start, first, bytes)| {
            let offset = (address as usize).checked_sub(start)?;
            let index = (first + offset) / 4;
            (offset < bytes).then_some(Location { window, index })
        });
    found.ok_or(Decline::Address)
}

#[cfg(test)]
mod tests {
    use super::*;

    /// Both ends of each window of a sign with 3 boot pages and 5 program pages of 256 bytes.
    #[test]
    fn ends_of_the_windows() {
        let geometry = Geometry { q: 2, b: 3, p: 5 };
        for (window, first, last, index, last_index) in [
            ("lower boot alias", 0x1FC0_0000, 0x1FC0_02FF, 0, 191),
            ("upper boot alias", 0x1FC2_0000, 0x1FC2_02FF, 0, 191),
            ("lower program region", 0x1D00_0000, 0x1D00_04FF, 192, 511),
            ("upper program region", 0x1D00_0500, 0x1D00_09FF, 192, 511),
        ] {
            for (address, index) in [(first, index), (last, last_index)] {
                let expected = Location { window, index };
                assert_eq!(locate(geometry, address), Ok(expected));
            }
        }
        for address in [
            0,
            0x1CFF_FFFF,
            0x1D00_0A00,
            0x1FBF_FFFF,
            0x1FC0_0300,
            0x1FC1_FFFF,
            0x1FC2_0300,
            u32::MAX,
        ] {
            assert_eq!(locate(geometry, address), Err(Decline::Address));
        }
    }

    #[test]
    fn sizes_out_of_range() {
        let geometry = Geometry { q: 3, b: 1, p: 1 };
        assert_eq!(locate(geometry, 0x1D00_0000), Err(Decline::Geometry));
    }
}
