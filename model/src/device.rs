//! The device record, the register table, protection and decline 3.

use crate::geometry::{Bank, Geometry, Kind, Location, Side, LOWER_PROGRAM};
use crate::operation::{judge, Judgement};
use crate::{Answer, Refusal};

pub const NVMCON: usize = 0;
pub const NVMKEY: usize = 1;
pub const NVMADDR: usize = 2;
pub const NVMDATA0: usize = 3;
pub const NVMSRCADDR: usize = 7;
pub const NVMPWP: usize = 8;
pub const NVMBWP: usize = 9;
pub const NVMCON2: usize = 10;

pub const REGISTERS: usize = 11;

/// Implemented masks; NVMKEY "reads 0".
pub const MASKS: [u32; REGISTERS] = [
    0xF0CF,
    0,
    0xFFFF_FFFF,
    0xFFFF_FFFF,
    0xFFFF_FFFF,
    0xFFFF_FFFF,
    0xFFFF_FFFF,
    0xFFFF_FFFF,
    0x80FF_FFFF,
    0x9FDF,
    0xF01F_B3C0,
];

/// Reset values.
pub const RESETS: [u32; REGISTERS] = [0, 0, 0, 0, 0, 0, 0, 0, 0x8000_0000, 0x9FDF, 0x001F_0000];

// NVMCON
pub const WR: u32 = 1 << 15;
pub const WREN: u32 = 1 << 14;
pub const WRERR: u32 = 1 << 13;
pub const LVDERR: u32 = 1 << 12;
pub const PFSWAP: u32 = 1 << 7;
pub const BFSWAP: u32 = 1 << 6;
pub const NVMOP: u32 = 0xF;

// NVMPWP
pub const PWPULOCK: u32 = 1 << 31;
pub const PWP: u32 = 0x00FF_FFFF;

// NVMBWP
pub const LBWPULOCK: u32 = 1 << 15;
pub const LBWP: u32 = 0x1F00;
pub const UBWPULOCK: u32 = 1 << 7;
pub const BWP_ALWAYS: u32 = 1 << 6;
pub const UBWP: u32 = 0x1F;

// NVMCON2
pub const NVMERS: u32 = 0xF000_0000;
pub const NVMWS: u32 = 0x001F_0000;
pub const NVMLPRD: u32 = 1 << 15;
pub const NVMCRD: u32 = 1 << 13;
pub const NVMVRD: u32 = 1 << 12;
pub const NVMRETRY: u32 = 0x300;
pub const SWAPLOCK: u32 = 0xC0;

/// What an operation works by: NVMADDR, NVMDATA0 to 3 and NVMSRCADDR.
#[derive(Clone, Copy, Debug, PartialEq, Eq)]
pub struct Operands {
    pub address: u32,
    pub data: [u32; 4],
    pub source: u32,
}

impl Operands {
    /// W-209: "all 0 while WR is 0".
    pub const NONE: Operands = Operands {
        address: 0,
        data: [0; 4],
        source: 0,
    };

    /// Six numbers, in the order of the registers.
    pub fn numbers(&self) -> [u32; 6] {
        let [zero, one, two, three] = self.data;
        [self.address, zero, one, two, three, self.source]
    }
}

/// "eleven registers, the key step (0 to 3) and the step number"; from W-209 on what the running operation was launched with.
#[derive(Clone, Copy, Debug, PartialEq, Eq)]
pub struct Device {
    pub registers: [u32; REGISTERS],
    pub key_step: u32,
    pub step_number: u32,
    pub launched: Operands,
}

impl Device {
    /// All reset values.
    pub fn reset_values() -> Device {
        Device {
            registers: RESETS,
            key_step: 0,
            step_number: 0,
            launched: Operands::NONE,
        }
    }

    /// Whether any of the bits is 1 in NVMCON.
    pub fn con(&self, bits: u32) -> bool {
        self.registers[NVMCON] & bits != 0
    }

    pub fn set_con(&mut self, bits: u32) {
        self.registers[NVMCON] |= bits;
    }

    pub fn clear_con(&mut self, bits: u32) {
        self.registers[NVMCON] &= !bits;
    }

    pub fn running(&self) -> bool {
        self.con(WR)
    }

    pub fn nvmop(&self) -> u32 {
        self.registers[NVMCON] & NVMOP
    }

    pub fn pwp(&self) -> u32 {
        self.registers[NVMPWP] & PWP
    }

    pub fn key_open(&self) -> bool {
        self.key_step == 3
    }

    /// What the six registers hold now, for the next launch.
    pub fn loaded(&self) -> Operands {
        let data = &self.registers[NVMDATA0..NVMDATA0 + 4];
        Operands {
            address: self.registers[NVMADDR],
            data: [data[0], data[1], data[2], data[3]],
            source: self.registers[NVMSRCADDR],
        }
    }

    /// The operation ends: no next step, and nothing that it was launched with.
    pub fn end_operation(&mut self) {
        self.clear_con(WR);
        self.step_number = 0;
        self.launched = Operands::NONE;
    }

    /// The bank whose boot or program pages stand on a side.
    pub fn bank_at(&self, kind: Kind, side: Side) -> Bank {
        let swapped = match kind {
            Kind::Boot => self.con(BFSWAP),
            Kind::Program => self.con(PFSWAP),
        };
        let lower = if swapped { Bank::Two } else { Bank::One };
        match side {
            Side::Lower => lower,
            Side::Upper => lower.other(),
        }
    }

    pub fn lower_alias_bank(&self) -> Bank {
        self.bank_at(Kind::Boot, Side::Lower)
    }

    /// "the bank that BFSWAP and PFSWAP both put lower"; none where they differ.
    pub fn running_bank(&self) -> Option<Bank> {
        let lower = self.lower_alias_bank();
        (lower == self.bank_at(Kind::Program, Side::Lower)).then_some(lower)
    }
}

/// Whether a page of a window is protected; protection follows the mapping.
pub fn protected(geometry: &Geometry, device: &Device, kind: Kind, side: Side, page: u32) -> bool {
    match kind {
        // "PWP not 0 and the page's offset from 0x1D000000 at most PWP"
        Kind::Program => {
            let start = geometry.window_start(kind, side) + page * geometry.page_bytes();
            device.pwp() != 0 && start - LOWER_PROGRAM <= device.pwp()
        }
        // "LBWPi or UBWPi of its alias"
        Kind::Boot => {
            let field = match side {
                Side::Lower => (device.registers[NVMBWP] & LBWP) >> 8,
                Side::Upper => device.registers[NVMBWP] & UBWP,
            };
            (field >> page) & 1 == 1
        }
    }
}

/// Protection of the page that holds a location.
pub fn location_protected(geometry: &Geometry, device: &Device, location: Location) -> bool {
    let page = geometry.page_number(location);
    protected(geometry, device, location.kind, location.side, page)
}

/// Decline 3: "The device record is impossible".
pub fn check_device(geometry: &Geometry, device: &Device) -> Answer<()> {
    if possible(geometry, device) {
        Ok(())
    } else {
        Err(Refusal::Device)
    }
}

pub fn possible(geometry: &Geometry, device: &Device) -> bool {
    let implemented = (0..REGISTERS).all(|row| device.registers[row] & !MASKS[row] == 0);
    if !implemented || device.registers[NVMBWP] & BWP_ALWAYS == 0 || device.key_step > 3 {
        return false;
    }
    if device.running() {
        running_possible(geometry, device)
    } else {
        device.step_number == 0 && device.launched == Operands::NONE
    }
}

fn running_possible(geometry: &Geometry, device: &Device) -> bool {
    if device.key_step != 0 || !device.con(WRERR) || device.con(LVDERR) {
        return false;
    }
    // W-209: "3 judges the launched target"
    match judge(geometry, device, device.launched.address) {
        Judgement::Steps(length) => device.step_number < length,
        Judgement::NoLaunch | Judgement::Failure => false,
    }
}
