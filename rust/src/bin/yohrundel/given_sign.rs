//! The sign that the options of a command name: the files of its banks, and its registers.

use std::ffi::OsStr;

use yohrundel::Geometry;

use crate::arguments::Arguments;
use crate::failure::Failure;
use crate::registers::Registers;
use crate::sign::Sign;
use crate::sign_files::BankFiles;

/// What the options --bank1, --bank2 and --register say.
pub struct GivenSign<'a> {
    banks: BankFiles<'a>,
    registers: Registers,
}

impl<'a> GivenSign<'a> {
    /// Reads the options, but no file.
    pub fn of(arguments: &Arguments<'a>) -> Result<GivenSign<'a>, Failure> {
        Ok(GivenSign {
            banks: BankFiles::of(arguments)?,
            registers: Registers::of(arguments)?,
        })
    }

    /// The sign after power-on and start-up, with the registers that are set, and with the image of a file or a made-up one. Where
    /// these map another bank lower than the reset did, no update is accepted.
    pub fn sign(&self, geometry: Geometry, image: Option<&OsStr>) -> Result<Sign, Failure> {
        let mut sign = self.banks.sign(geometry, image)?;
        self.registers.set(sign.device_mut());
        Ok(sign)
    }
}
