//! A sign with its own banks, and the calls as its methods.

mod bank_calls;
mod script_calls;
mod update_calls;

use crate::{cut_start_up, register_read, start_up, store, Bank, Decline, Device, Geometry};

/// A sign: its sizes, its device and its two banks.
///
/// A method does what the function of the same name does, and changes the device and the banks in place. Where it is declined both are as
/// before.
///
/// ```
/// use yohrundel::reset_kind::{BROWN_OUT, POWER_ON};
/// use yohrundel::{Bank, Decline, Geometry, Sign};
///
/// fn main() -> Result<(), Decline> {
///     let geometry = Geometry { q: 1, b: 1, p: 1 };
///     let sequence = geometry.sequence_index()?;
///     let (mut one, two, image) = (vec![7; 64], vec![!0; 64], [9; 64]);
///     one[sequence] = 0xFFFE_0001;
///     let mut sign = Sign::power_on(geometry, [one, two]);
///     sign.reset(&[], POWER_ON, [0; 4])?;
///     sign.start_up()?;
///     assert_eq!(sign.running_bank(), Some(Bank::One));
///
///     // The supply fails inside the last step, which programs the new sequence quad.
///     let started = sign.update_start(&image)?;
///     let mut place = started.place;
///     while place < started.total - 2 {
///         place = sign.turn(&image, &[], place)?.place;
///     }
///     assert!(sign.device.operation_runs());
///     sign.reset(&[], BROWN_OUT, [0x0000_FFFF, 0, 0, 0])?;
///     sign.start_up()?;
///     assert_eq!(sign.running_bank(), Some(Bank::One));
///
///     // The same update again, to its end.
///     assert_eq!(sign.update(&image)?, started.total);
///     sign.reset(&[], POWER_ON, [0; 4])?;
///     sign.start_up()?;
///     assert_eq!(sign.running_bank(), Some(Bank::Two));
///     assert_eq!(sign.bank(Bank::Two)[sequence], 0xFFFD_0002);
///     Ok(())
/// }
/// ```
#[derive(Clone, Debug, PartialEq, Eq, Hash)]
pub struct Sign {
    /// Its sizes.
    pub geometry: Geometry,
    /// Its device.
    pub device: Device,
    /// Bank 1 and bank 2.
    pub banks: [Vec<u32>; 2],
}

impl Sign {
    /// A sign with these banks after power-on, before a reset compares them. Each call judges the sizes and lengths.
    pub fn power_on(geometry: Geometry, banks: [Vec<u32>; 2]) -> Sign {
        Sign {
            geometry,
            device: Device::power_on(),
            banks,
        }
    }

    /// The words of a bank.
    pub fn bank(&self, bank: Bank) -> &[u32] {
        let [one, two] = &self.banks;
        match bank {
            Bank::One => one,
            Bank::Two => two,
        }
    }

    /// The bank that the sign runs; none where BFSWAP and PFSWAP differ. See [`Device::running_bank`].
    pub fn running_bank(&self) -> Option<Bank> {
        self.device.running_bank()
    }

    /// Stores a value to a register; gives whether there was an event. See [`store`].
    ///
    /// # Errors
    ///
    /// [`Decline::Geometry`], [`Decline::Device`], [`Decline::Register`] and [`Decline::Running`], as there.
    pub fn store(&mut self, register: u32, form: u32, value: u32) -> Result<bool, Decline> {
        let stored = store(self.geometry, self.device, register, form, value)?;
        self.device = stored.device;
        Ok(stored.event)
    }

    /// Reads a register; gives its value. See [`register_read`].
    ///
    /// # Errors
    ///
    /// [`Decline::Geometry`], [`Decline::Device`] and [`Decline::Register`], as there.
    pub fn register_read(&mut self, register: u32) -> Result<u32, Decline> {
        let read = register_read(self.geometry, self.device, register)?;
        self.device = read.device;
        Ok(read.value)
    }

    /// The start-up after a reset. See [`start_up`].
    ///
    /// # Errors
    ///
    /// [`Decline::Geometry`], [`Decline::Device`] and [`Decline::Running`], as there.
    pub fn start_up(&mut self) -> Result<(), Decline> {
        self.device = start_up(self.geometry, self.device)?;
        Ok(())
    }

    /// The first stores of a start-up that the supply cuts. See [`cut_start_up`].
    ///
    /// # Errors
    ///
    /// [`Decline::Geometry`], [`Decline::Device`] and [`Decline::Running`], as there.
    pub fn cut_start_up(&mut self, stores: usize) -> Result<(), Decline> {
        self.device = cut_start_up(self.geometry, self.device, stores)?;
        Ok(())
    }
}
