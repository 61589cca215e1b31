//! Q, B and P, the sizes that follow from them, the four windows and addresses.

use crate::{Answer, Refusal};

pub const LOWER_BOOT: u32 = 0x1FC0_0000;
pub const UPPER_BOOT: u32 = 0x1FC2_0000;
pub const LOWER_PROGRAM: u32 = 0x1D00_0000;

/// A word of all ones.
pub const ALL_ONES: u32 = 0xFFFF_FFFF;

/// "at most 16,384 words".
pub const SRAM_LIMIT: usize = 16_384;

/// W-211: "P goes from 64 to 128, in decline 1 as well."
pub const MOST_PROGRAM_PAGES: u32 = 128;

pub const ROW_QUADS: [u32; 8] = [1, 2, 4, 8, 16, 32, 64, 128];

#[derive(Clone, Copy, Debug, PartialEq, Eq)]
pub enum Kind {
    Boot,
    Program,
}

#[derive(Clone, Copy, Debug, PartialEq, Eq)]
pub enum Side {
    Lower,
    Upper,
}

/// One of the two banks.
#[derive(Clone, Copy, Debug, PartialEq, Eq)]
pub enum Bank {
    One,
    Two,
}

impl Bank {
    pub fn other(self) -> Bank {
        match self {
            Bank::One => Bank::Two,
            Bank::Two => Bank::One,
        }
    }

    pub fn number(self) -> u32 {
        match self {
            Bank::One => 1,
            Bank::Two => 2,
        }
    }
}

/// A byte in one of the four windows; the offset counts from the window's start.
#[derive(Clone, Copy, Debug, PartialEq, Eq)]
pub struct Location {
    pub kind: Kind,
    pub side: Side,
    pub offset: u32,
}

/// Q, B and P after decline 1 was judged.
#[derive(Clone, Copy, Debug, PartialEq, Eq)]
pub struct Geometry {
    pub row_quads: u32,
    pub boot_pages: u32,
    pub program_pages: u32,
}

impl Geometry {
    /// Decline 1: "Q, B or P is outside its list or range".
    pub fn new(numbers: [u32; 3]) -> Answer<Geometry> {
        let [row_quads, boot_pages, program_pages] = numbers;
        let listed = ROW_QUADS.contains(&row_quads);
        let pages =
            (1..=5).contains(&boot_pages) && (1..=MOST_PROGRAM_PAGES).contains(&program_pages);
        if !listed || !pages {
            return Err(Refusal::Geometry);
        }
        Ok(Geometry {
            row_quads,
            boot_pages,
            program_pages,
        })
    }

    pub fn numbers(&self) -> [u32; 3] {
        [self.row_quads, self.boot_pages, self.program_pages]
    }

    /// N = B+P.
    pub fn pages(&self) -> u32 {
        self.boot_pages + self.program_pages
    }

    /// "A page is 8 rows", so 8×Q quads.
    pub fn page_quads(&self) -> u32 {
        8 * self.row_quads
    }

    pub fn page_words(&self) -> u32 {
        32 * self.row_quads
    }

    pub fn page_bytes(&self) -> u32 {
        128 * self.row_quads
    }

    pub fn row_bytes(&self) -> u32 {
        16 * self.row_quads
    }

    pub fn bank_words(&self) -> u32 {
        self.pages() * self.page_words()
    }

    /// Bytes of one program region.
    pub fn region_bytes(&self) -> u32 {
        self.program_pages * self.page_bytes()
    }

    /// Word 0 of the last quad of the last boot page.
    pub fn sequence_index(&self) -> usize {
        (self.boot_pages * self.page_words() - 4) as usize
    }

    pub fn window_start(&self, kind: Kind, side: Side) -> u32 {
        match (kind, side) {
            (Kind::Boot, Side::Lower) => LOWER_BOOT,
            (Kind::Boot, Side::Upper) => UPPER_BOOT,
            (Kind::Program, Side::Lower) => LOWER_PROGRAM,
            // "upper region directly after it"
            (Kind::Program, Side::Upper) => LOWER_PROGRAM + self.region_bytes(),
        }
    }

    pub fn window_bytes(&self, kind: Kind) -> u32 {
        match kind {
            Kind::Boot => self.boot_pages * self.page_bytes(),
            Kind::Program => self.region_bytes(),
        }
    }

    /// Pages of one kind in a bank.
    pub fn window_pages(&self, kind: Kind) -> u32 {
        match kind {
            Kind::Boot => self.boot_pages,
            Kind::Program => self.program_pages,
        }
    }

    /// Quads of one kind of pages in a bank.
    pub fn window_quads(&self, kind: Kind) -> u32 {
        self.window_pages(kind) * self.page_quads()
    }

    /// Where an address lies; none outside the four windows.
    pub fn locate(&self, address: u32) -> Option<Location> {
        for kind in [Kind::Boot, Kind::Program] {
            for side in [Side::Lower, Side::Upper] {
                let start = self.window_start(kind, side);
                if address >= start && address - start < self.window_bytes(kind) {
                    let offset = address - start;
                    return Some(Location { kind, side, offset });
                }
            }
        }
        None
    }

    /// The index in its bank of the word that holds a location.
    pub fn word_index(&self, location: Location) -> usize {
        let first = match location.kind {
            Kind::Boot => 0,
            Kind::Program => self.boot_pages * self.page_words(),
        };
        (first + location.offset / 4) as usize
    }

    /// The page's number in its window.
    pub fn page_number(&self, location: Location) -> u32 {
        location.offset / self.page_bytes()
    }

    /// Decline 2 for one lent bank or image.
    pub fn check_bank(&self, words: &[u32]) -> Answer<()> {
        if words.len() != self.bank_words() as usize {
            return Err(Refusal::Length);
        }
        Ok(())
    }
}

/// Decline 2 for the SRAM.
pub fn check_sram(sram: &[u32]) -> Answer<()> {
    if sram.len() > SRAM_LIMIT {
        return Err(Refusal::Length);
    }
    Ok(())
}

/// Both lent banks.
pub struct Banks<'a> {
    pub one: &'a mut [u32],
    pub two: &'a mut [u32],
}

impl Banks<'_> {
    pub fn words(&self, bank: Bank) -> &[u32] {
        match bank {
            Bank::One => self.one,
            Bank::Two => self.two,
        }
    }

    pub fn words_mut(&mut self, bank: Bank) -> &mut [u32] {
        match bank {
            Bank::One => self.one,
            Bank::Two => self.two,
        }
    }

    /// The four words from an index on.
    pub fn quad(&self, bank: Bank, index: usize) -> [u32; 4] {
        let words = self.words(bank);
        [
            words[index],
            words[index + 1],
            words[index + 2],
            words[index + 3],
        ]
    }

    pub fn set_quad(&mut self, bank: Bank, index: usize, quad: [u32; 4]) {
        self.words_mut(bank)[index..index + 4].copy_from_slice(&quad);
    }

    /// Decline 2 for both banks.
    pub fn check(&self, geometry: &Geometry) -> Answer<()> {
        geometry.check_bank(self.one)?;
        geometry.check_bank(self.two)
    }
}
