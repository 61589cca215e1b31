//! Registers of a sign that options set.

use yohrundel::register::{NVMADDR, NVMBWP, NVMCON, NVMCON2, NVMDATA0, NVMKEY, NVMPWP, NVMSRCADDR};
use yohrundel::Device;

use crate::arguments::{hexadecimal, Arguments};
use crate::failure::Failure;
use crate::options::OptionSpec;
use crate::records::{register_name, register_number};

/// Sets one register.
pub const REGISTER: OptionSpec = OptionSpec::value(
    "--register",
    "NAME=HEX",
    "sets a register to a hexadecimal word after the power-on reset and start-up: NVMCON, NVMADDR, \
     NVMDATA0 to 3, NVMSRCADDR, NVMPWP, NVMBWP or NVMCON2. It may be given several times.",
)
.several();

/// A register by its number, and its value.
pub type Setting = (u32, u32);

/// The registers that options set, none of them twice.
pub struct Registers(Vec<Setting>);

impl Registers {
    /// What the option --register says.
    pub fn of(arguments: &Arguments) -> Result<Registers, Failure> {
        let words = "NAME=HEX with the name of a register and a hexadecimal word";
        let settings = arguments.value_forms(&REGISTER, words, read)?;
        Registers(Vec::new()).and(settings)
    }

    /// With some more.
    pub fn and(mut self, settings: Vec<Setting>) -> Result<Registers, Failure> {
        for setting @ (number, _) in settings {
            if self.0.iter().any(|(other, _)| *other == number) {
                let name = register_name(number).unwrap_or("a register");
                return Err(Failure::arguments(format!("{name} is set twice")));
            }
            self.0.push(setting);
        }
        Ok(self)
    }

    /// Puts them into a device record. Where NVMCON says that an operation runs, it works by what the registers hold then.
    pub fn set(&self, device: &mut Device) {
        for (number, value) in &self.0 {
            if let Some(register) = register(device, *number) {
                *register = *value;
            }
        }
        *device = device.completed();
    }
}

/// "NAME=HEX"; not of NVMKEY, which reads 0.
fn read(text: &str) -> Option<Setting> {
    let (name, value) = text.split_once('=')?;
    let number = register_number(name).filter(|number| *number != NVMKEY)?;
    Some((number, hexadecimal(value)?))
}

/// A register of a device record by its number.
fn register(device: &mut Device, number: u32) -> Option<&mut u32> {
    match number {
        NVMCON => Some(&mut device.nvmcon),
        NVMADDR => Some(&mut device.nvmaddr),
        NVMSRCADDR => Some(&mut device.nvmsrcaddr),
        NVMPWP => Some(&mut device.nvmpwp),
        NVMBWP => Some(&mut device.nvmbwp),
        NVMCON2 => Some(&mut device.nvmcon2),
        _ => device
            .nvmdata
            .get_mut(number.checked_sub(NVMDATA0)? as usize),
    }
}
