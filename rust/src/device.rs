//! The device record.

use crate::ffi;
use crate::nvmcon::{BFSWAP, PFSWAP, WR};

/// What an operation works by: its address, its data and its source. [`Operands::default`] is all 0.
#[repr(C)]
#[derive(Clone, Copy, Debug, Default, PartialEq, Eq, Hash)]
pub struct Operands {
    /// NVMADDR.
    pub nvmaddr: u32,
    /// NVMDATA0 to 3.
    pub nvmdata: [u32; 4],
    /// NVMSRCADDR.
    pub nvmsrcaddr: u32,
}

impl Operands {
    /// NVMADDR, NVMDATA0 to 3 and NVMSRCADDR, in this order.
    pub fn numbers(&self) -> [u32; 6] {
        let [zero, one, two, three] = self.nvmdata;
        [self.nvmaddr, zero, one, two, three, self.nvmsrcaddr]
    }
}

/// The eleven registers, the key step, the step number of the running operation and what that was launched with.
///
/// A record that was stored when it had no `launched` is completed by [`Device::completed`].
#[repr(C)]
#[derive(Clone, Copy, Debug, PartialEq, Eq, Hash)]
pub struct Device {
    /// NVMCON; [`crate::nvmcon`] names its bits.
    pub nvmcon: u32,
    /// NVMKEY, which reads 0.
    pub nvmkey: u32,
    /// NVMADDR.
    pub nvmaddr: u32,
    /// NVMDATA0 to 3.
    pub nvmdata: [u32; 4],
    /// NVMSRCADDR.
    pub nvmsrcaddr: u32,
    /// NVMPWP.
    pub nvmpwp: u32,
    /// NVMBWP.
    pub nvmbwp: u32,
    /// NVMCON2.
    pub nvmcon2: u32,
    /// How many of the three key stores are done; at 3 the key is open.
    pub keystep: u32,
    /// The number of the next step of the running operation; 0 where none runs.
    pub step: u32,
    /// NVMADDR, NVMDATA0 to 3 and NVMSRCADDR as they stood before the store that launched the running operation, unrounded; all 0 where
    /// none runs. The operation works by these, and the registers may be loaded for the next launch.
    pub launched: Operands,
}

/// One of the two banks.
#[derive(Clone, Copy, Debug, PartialEq, Eq, Hash)]
pub enum Bank {
    /// Bank 1.
    One = 1,
    /// Bank 2.
    Two = 2,
}

impl Bank {
    /// 1 or 2.
    pub fn number(self) -> u32 {
        self as u32
    }
}

impl Device {
    /// The device after power-on, before any comparison of the banks. [`crate::reset`] compares them.
    pub fn power_on() -> Device {
        ffi::power_on()
    }

    /// A register as it stands, by its number from 0 to 10. Unlike [`crate::register_read`] it is no access of the device.
    pub fn register(&self, number: u32) -> Option<u32> {
        match number {
            0 => Some(self.nvmcon),
            1 => Some(self.nvmkey),
            2 => Some(self.nvmaddr),
            3..=6 => Some(self.nvmdata[number as usize - 3]),
            7 => Some(self.nvmsrcaddr),
            8 => Some(self.nvmpwp),
            9 => Some(self.nvmbwp),
            10 => Some(self.nvmcon2),
            _ => None,
        }
    }

    /// What the six registers hold now, for the next launch.
    pub fn loaded(&self) -> Operands {
        Operands {
            nvmaddr: self.nvmaddr,
            nvmdata: self.nvmdata,
            nvmsrcaddr: self.nvmsrcaddr,
        }
    }

    /// The device of a record that was stored without `launched`, whatever that is here: where an operation runs it was launched with what
    /// the registers hold, for nothing could be stored to them while it ran; where none runs it is all 0.
    ///
    /// ```
    /// use yohrundel::{nvmcon, Device, Operands};
    ///
    /// let mut device = Device::power_on();
    /// device.nvmcon = nvmcon::WR | nvmcon::WREN | nvmcon::WRERR | 2;
    /// device.nvmaddr = 0x1D00_0080;
    /// assert_eq!(device.completed().launched, device.loaded());
    /// assert_eq!(Device::power_on().completed().launched, Operands::default());
    /// ```
    pub fn completed(self) -> Device {
        let launched = if self.operation_runs() {
            self.loaded()
        } else {
            Operands::default()
        };
        Device { launched, ..self }
    }

    /// A copy made word by word. One of the whole record is made by moves of 16 bytes of which the last two overlap, and the next load
    /// of what both stored waits for them.
    #[inline]
    pub(crate) fn by_words(&self) -> Device {
        let [data0, data1, data2, data3] = self.nvmdata;
        let [launched0, launched1, launched2, launched3] = self.launched.nvmdata;
        let launched = Operands {
            nvmdata: [launched0, launched1, launched2, launched3],
            ..self.launched
        };
        Device {
            nvmdata: [data0, data1, data2, data3],
            launched,
            ..*self
        }
    }

    /// Whether an operation runs: WR = 1.
    pub fn operation_runs(&self) -> bool {
        self.nvmcon & WR != 0
    }

    /// "The sign runs the bank that BFSWAP and PFSWAP both put lower"; none where they differ.
    pub fn running_bank(&self) -> Option<Bank> {
        match (self.nvmcon & BFSWAP != 0, self.nvmcon & PFSWAP != 0) {
            (false, false) => Some(Bank::One),
            (true, true) => Some(Bank::Two),
            _ => None,
        }
    }
}
