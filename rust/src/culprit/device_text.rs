//! The clauses of decline 3 in words.

use std::fmt::{Display, Formatter, Result};

use super::device::{DeviceClause, MASKS, NVMOP};
use super::register::name;

impl Display for DeviceClause {
    fn fmt(&self, f: &mut Formatter<'_>) -> Result {
        use DeviceClause::*;
        match *self {
            UnimplementedBit { register, value } => write_unimplemented(f, register, value),
            BitSixClear { nvmbwp } => write!(f, "NVMBWP is 0x{nvmbwp:08X}, with bit 6 clear"),
            KeyNotZero { nvmkey } => write!(f, "NVMKEY is 0x{nvmkey:08X}, not 0"),
            KeyStepAboveThree { keystep } => write!(f, "the key step is {keystep}, above 3"),
            StepAtRest { step } => write!(f, "the step number is {step} with WR = 0, not 0"),
            LaunchedAtRest { register, value } => write_launched(f, register, value),
            KeyStepRunning { keystep } => write!(f, "the key step is {keystep} with WR = 1, not 0"),
            NoWriteError { nvmcon } => write!(f, "NVMCON is 0x{nvmcon:08X}: WR = 1 and WRERR = 0"),
            LowVoltageError { nvmcon } => {
                write!(f, "NVMCON is 0x{nvmcon:08X}: WR = 1 and LVDERR = 1")
            }
            NoOperation { nvmcon } => write_no_operation(f, nvmcon),
            TargetOutside { address } => {
                write_target(f, address)?;
                f.write_str("outside the four windows")
            }
            TargetProtected { address, nvmpwp } => {
                write_target(f, address)?;
                write!(f, "in a program page that NVMPWP 0x{nvmpwp:08X} protects")
            }
            RegionProtected { nvmop, nvmpwp } => {
                write!(f, "NVMPWP is 0x{nvmpwp:08X} and protects a page ")?;
                write!(f, "that NVMOP {nvmop} erases")
            }
            StepPastEnd {
                nvmop,
                step,
                length,
            } => {
                write!(f, "the step number is {step}, not below {length}, ")?;
                write!(f, "the steps of NVMOP {nvmop}")
            }
        }
    }
}

fn write_unimplemented(f: &mut Formatter<'_>, register: u32, value: u32) -> Result {
    let row = MASKS.into_iter().find(|(of, _)| *of == register);
    let (name, mask) = (name(register), row.map_or(!0, |(_, mask)| mask));
    write!(f, "{name} is 0x{value:08X}, ")?;
    write!(f, "with a bit outside its mask 0x{mask:08X}")
}

fn write_launched(f: &mut Formatter<'_>, register: u32, value: u32) -> Result {
    let name = name(register);
    write!(f, "the launched {name} is 0x{value:08X} with WR = 0, not 0")
}

fn write_no_operation(f: &mut Formatter<'_>, nvmcon: u32) -> Result {
    let nvmop = nvmcon & NVMOP;
    write!(f, "NVMCON is 0x{nvmcon:08X}: WR = 1, ")?;
    write!(f, "but no steps begin for NVMOP {nvmop}")
}

/// The front of a sentence.
fn write_target(f: &mut Formatter<'_>, address: u32) -> Result {
    write!(f, "the launched NVMADDR is 0x{address:08X}, ")
}
