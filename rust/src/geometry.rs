//! The sizes of a sign.

use crate::{ffi, Decline};

/// Q, B and P. Each call judges them; any numbers may be handed over.
#[repr(C)]
#[derive(Clone, Copy, Debug, PartialEq, Eq, Hash)]
pub struct Geometry {
    /// Quads per row: one of [`Geometry::ROW_QUADS`].
    pub q: u32,
    /// Boot pages per bank: 1 to [`Geometry::MOST_BOOT_PAGES`].
    pub b: u32,
    /// Program pages per bank: 1 to [`Geometry::MOST_PROGRAM_PAGES`].
    pub p: u32,
}

impl Geometry {
    /// What Q may be.
    pub const ROW_QUADS: [u32; 8] = [1, 2, 4, 8, 16, 32, 64, 128];

    /// The most that B may be.
    pub const MOST_BOOT_PAGES: u32 = 5;

    /// The most that P may be.
    pub const MOST_PROGRAM_PAGES: u32 = 128;

    /// The pages of a bank: N = B+P.
    ///
    /// # Errors
    ///
    /// [`Decline::Geometry`]: Q, B or P is out of range.
    pub fn pages(self) -> Result<usize, Decline> {
        self.judge()?;
        Ok((self.b + self.p) as usize)
    }

    /// The words of a page: 32×Q.
    ///
    /// # Errors
    ///
    /// [`Decline::Geometry`]: Q, B or P is out of range.
    pub fn page_words(self) -> Result<usize, Decline> {
        self.judge()?;
        Ok(32 * self.q as usize)
    }

    /// The words of a bank and of an image: N×32×Q.
    ///
    /// # Errors
    ///
    /// [`Decline::Geometry`]: Q, B or P is out of range.
    pub fn bank_words(self) -> Result<usize, Decline> {
        Ok(self.pages()? * self.page_words()?)
    }

    /// The index in a bank of its sequence word: "word 0 of the last quad of the last boot page".
    ///
    /// # Errors
    ///
    /// [`Decline::Geometry`]: Q, B or P is out of range.
    pub fn sequence_index(self) -> Result<usize, Decline> {
        Ok(self.b as usize * self.page_words()? - 4)
    }

    /// The bytes of a page sheet: 34×N.
    ///
    /// # Errors
    ///
    /// [`Decline::Geometry`]: Q, B or P is out of range.
    pub fn sheet_bytes(self) -> Result<usize, Decline> {
        Ok(34 * self.pages()?)
    }

    /// The bytes of the script that an update is written as, 8 for each of its actions: 8×(12 + 8×N + 112×N×Q).
    ///
    /// # Errors
    ///
    /// [`Decline::Geometry`]: Q, B or P is out of range.
    pub fn script_bytes(self) -> Result<usize, Decline> {
        let pages = self.pages()?;
        Ok(8 * (12 + 8 * pages + 112 * pages * self.q as usize))
    }

    /// Decline 1, asked of the library: no bank has 0 words, so a page of one is declined by 1 or by 2.
    fn judge(self) -> Result<(), Decline> {
        match Decline::judge(ffi::page(self, &[], 0).decline) {
            Err(Decline::Geometry) => Err(Decline::Geometry),
            _ => Ok(()),
        }
    }
}
