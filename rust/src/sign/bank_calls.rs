//! The calls on a sign's banks.

use crate::{flash_read, lower_bank, page, page_sheet, reset, step};
use crate::{Bank, Decline, FlashRead, Reason, Sign};

impl Sign {
    /// The bank on the lower boot alias. See [`lower_bank`].
    ///
    /// # Errors
    ///
    /// [`Decline::Geometry`], [`Decline::Length`] and [`Decline::Device`], as there.
    pub fn lower_bank(&self) -> Result<&[u32], Decline> {
        let [one, two] = &self.banks;
        lower_bank(self.geometry, self.device, one, two)
    }

    /// A page of a bank, by its number from 0 to N-1. See [`page`].
    ///
    /// # Errors
    ///
    /// [`Decline::Geometry`], [`Decline::Length`] and [`Decline::Address`], as there.
    pub fn page(&self, bank: Bank, number: u32) -> Result<&[u32], Decline> {
        page(self.geometry, self.bank(bank), number)
    }

    /// The word at a byte address, for which the read may wait. See [`flash_read`].
    ///
    /// # Errors
    ///
    /// [`Decline::Geometry`], [`Decline::Length`], [`Decline::Device`] and [`Decline::Address`], as there.
    pub fn flash_read(&mut self, sram: &[u32], address: u32) -> Result<FlashRead, Decline> {
        let [one, two] = &mut self.banks;
        let read = flash_read(self.geometry, self.device, one, two, sram, address)?;
        self.device = read.device;
        Ok(read)
    }

    /// One step of the running operation; gives whether there was an event. See [`step`].
    ///
    /// # Errors
    ///
    /// [`Decline::Geometry`], [`Decline::Length`], [`Decline::Device`] and [`Decline::Idle`], as there.
    pub fn step(&mut self, sram: &[u32]) -> Result<bool, Decline> {
        let [one, two] = &mut self.banks;
        let stepped = step(self.geometry, self.device, one, two, sram)?;
        self.device = stepped.device;
        Ok(stepped.event)
    }

    /// A reset of a kind of [`crate::reset_kind`]; gives why BFSWAP is as it is now. See [`reset`].
    ///
    /// # Errors
    ///
    /// [`Decline::Geometry`], [`Decline::Length`], [`Decline::Device`] and [`Decline::ResetKind`], as there.
    pub fn reset(&mut self, sram: &[u32], kind: u32, mask: [u32; 4]) -> Result<Reason, Decline> {
        let [one, two] = &mut self.banks;
        let restarted = reset(self.geometry, self.device, one, two, sram, kind, mask)?;
        self.device = restarted.device;
        Ok(restarted.reason)
    }

    /// The page sheet. See [`page_sheet`].
    ///
    /// # Errors
    ///
    /// [`Decline::Geometry`], [`Decline::Length`] and [`Decline::Device`], as there; the buffer is long enough.
    pub fn page_sheet(&self) -> Result<Vec<u8>, Decline> {
        let [one, two] = &self.banks;
        let mut sheet = vec![0; self.geometry.sheet_bytes()?];
        page_sheet(self.geometry, self.device, one, two, &mut sheet)?;
        Ok(sheet)
    }
}
