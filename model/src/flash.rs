//! Flash steps, resets, flash read, lower bank and page.

use crate::device::*;
use crate::geometry::{check_sram, Bank, Banks, Geometry, Kind, ALL_ONES};
use crate::operation::{judge, next_quad, targets, Judgement};
use crate::sequence::{compare, Comparison, Reason};
use crate::{Answer, Refusal};

/// What the next step of a running operation does.
#[derive(Clone, Copy, Debug, PartialEq, Eq)]
enum Effect {
    Abort,
    /// "In a protected boot page steps count and change nothing".
    Nothing,
    Write {
        bank: Bank,
        index: usize,
        quad: [u32; 4],
    },
}

fn next_effect(geometry: &Geometry, device: &Device, banks: &Banks, sram: &[u32]) -> Effect {
    let Some(location) = next_quad(geometry, device) else {
        return Effect::Abort;
    };
    if location.kind == Kind::Boot && location_protected(geometry, device, location) {
        return Effect::Nothing;
    }
    let bank = device.bank_at(location.kind, location.side);
    let index = geometry.word_index(location);
    let data = match device.nvmop() {
        // W-209: "uses the address, data and source it was launched with"
        2 => Some(device.launched.data),
        3 => row_data(device, sram),
        // "Erasing sets all ones"
        _ => {
            return Effect::Write {
                bank,
                index,
                quad: [ALL_ONES; 4],
            }
        }
    };
    match data {
        // "Programming needs four words of all ones (house), else it aborts"
        Some(quad) if banks.quad(bank, index) == [ALL_ONES; 4] => {
            Effect::Write { bank, index, quad }
        }
        _ => Effect::Abort,
    }
}

/// Four words at NVMSRCADDR as launched + 16×step, "a sum that doesn't wrap".
fn row_data(device: &Device, sram: &[u32]) -> Option<[u32; 4]> {
    let address = u64::from(device.launched.source) + 16 * u64::from(device.step_number);
    if !address.is_multiple_of(4) {
        return None;
    }
    let first = (address / 4) as usize;
    let words = sram.get(first..first + 4)?;
    Some([words[0], words[1], words[2], words[3]])
}

/// One step of the running operation; true beside the device is an event.
pub fn step(
    numbers: [u32; 3],
    device: Device,
    banks: &mut Banks,
    sram: &[u32],
) -> Answer<(Device, bool)> {
    let geometry = Geometry::new(numbers)?;
    banks.check(&geometry)?;
    check_sram(sram)?;
    check_device(&geometry, &device)?;
    check_running(&device)?;
    Ok(apply_step(&geometry, device, banks, sram))
}

/// Decline 6: "A step with WR = 0".
pub fn check_running(device: &Device) -> Answer<()> {
    if !device.running() {
        return Err(Refusal::NotRunning);
    }
    Ok(())
}

/// An accepted step.
pub fn apply_step(
    geometry: &Geometry,
    device: Device,
    banks: &mut Banks,
    sram: &[u32],
) -> (Device, bool) {
    let mut after = device;
    match next_effect(geometry, &device, banks, sram) {
        Effect::Abort => {
            // "quad unchanged, WR = 0, WRERR stays 1, event"
            after.end_operation();
            return (after, true);
        }
        Effect::Nothing => {}
        Effect::Write { bank, index, quad } => banks.set_quad(bank, index, quad),
    }
    after.step_number = device.step_number + 1;
    // "The last step clears WR and WRERR, with an event"
    let length = judge(geometry, &device, device.launched.address);
    if length == Judgement::Steps(after.step_number) {
        after.end_operation();
        after.clear_con(WRERR);
        return (after, true);
    }
    (after, false)
}

/// What a reset leaves, and why it put a bank lower.
#[derive(Clone, Copy, Debug, PartialEq, Eq)]
pub struct Restart {
    pub device: Device,
    pub reason: Reason,
}

/// A reset; kinds 0 power-on, 1 brown-out, 2 other.
pub fn reset(
    numbers: [u32; 3],
    device: Device,
    banks: &mut Banks,
    sram: &[u32],
    kind: u32,
    mask: [u32; 4],
) -> Answer<Restart> {
    let geometry = Geometry::new(numbers)?;
    banks.check(&geometry)?;
    check_sram(sram)?;
    check_device(&geometry, &device)?;
    if kind > 2 {
        return Err(Refusal::ResetKind);
    }
    if device.running() {
        tear(&geometry, &device, banks, sram, mask);
    }
    let mut after = if kind == 0 {
        Device::reset_values()
    } else {
        reset_without_power(device, kind)
    };
    // "BFSWAP is compared after the tear"
    after.clear_con(BFSWAP);
    let compared = reset_choice(&geometry, banks);
    if compared.bank == Bank::Two {
        after.set_con(BFSWAP);
    }
    Ok(Restart {
        device: after,
        reason: compared.reason,
    })
}

/// "choose, bit by bit, intended (1) or old (0)".
fn tear(geometry: &Geometry, device: &Device, banks: &mut Banks, sram: &[u32], mask: [u32; 4]) {
    if let Effect::Write { bank, index, quad } = next_effect(geometry, device, banks, sram) {
        let mut torn = banks.quad(bank, index);
        for word in 0..4 {
            torn[word] = (torn[word] & !mask[word]) | (quad[word] & mask[word]);
        }
        banks.set_quad(bank, index, torn);
    }
}

/// Kinds 1 and 2, BFSWAP left to the comparison. W-209: "keeps the new register values".
fn reset_without_power(device: Device, kind: u32) -> Device {
    let mut after = device;
    after.end_operation();
    after.clear_con(WREN | PFSWAP);
    after.key_step = 0;
    after.registers[NVMPWP] = RESETS[NVMPWP];
    after.registers[NVMBWP] = RESETS[NVMBWP];
    // "keep the rest and NVMERS"
    let kept = device.registers[NVMCON2] & NVMERS;
    after.registers[NVMCON2] = (RESETS[NVMCON2] & !NVMERS) | kept;
    if kind == 1 && device.running() {
        after.set_con(LVDERR);
    }
    after
}

/// The bank that a reset would put on the lower alias now, and why.
pub fn reset_choice(geometry: &Geometry, banks: &Banks) -> Comparison {
    let index = geometry.sequence_index();
    compare(banks.one[index], banks.two[index])
}

/// What a flash read gives and leaves; with an event where it waited.
#[derive(Clone, Copy, Debug, PartialEq, Eq)]
pub struct Read {
    pub word: u32,
    pub event: bool,
    pub device: Device,
}

/// The word at an address; where it lies in a bank that the running operation targets, after the operation's end.
pub fn flash_read(
    numbers: [u32; 3],
    device: Device,
    banks: &mut Banks,
    sram: &[u32],
    address: u32,
) -> Answer<Read> {
    let geometry = Geometry::new(numbers)?;
    banks.check(&geometry)?;
    check_sram(sram)?;
    check_device(&geometry, &device)?;
    let location = geometry.locate(address).ok_or(Refusal::Address)?;
    if !address.is_multiple_of(4) {
        return Err(Refusal::Address);
    }
    let bank = device.bank_at(location.kind, location.side);
    let event = targets(&geometry, &device, bank);
    let device = if event {
        carry_out(&geometry, device, banks, sram)
    } else {
        device
    };
    let word = banks.words(bank)[geometry.word_index(location)];
    Ok(Read {
        word,
        event,
        device,
    })
}

/// W-207: "the remaining steps, up to an abort if one comes".
fn carry_out(geometry: &Geometry, device: Device, banks: &mut Banks, sram: &[u32]) -> Device {
    let mut after = device;
    while after.running() {
        after = apply_step(geometry, after, banks, sram).0;
    }
    after
}

/// "the lent bank itself".
pub fn lower_bank<'a>(numbers: [u32; 3], device: &Device, banks: &'a Banks) -> Answer<&'a [u32]> {
    let geometry = Geometry::new(numbers)?;
    banks.check(&geometry)?;
    check_device(&geometry, device)?;
    Ok(banks.words(device.lower_alias_bank()))
}

/// "handed back as that part of the bank".
pub fn page(numbers: [u32; 3], bank: &[u32], number: u32) -> Answer<&[u32]> {
    let geometry = Geometry::new(numbers)?;
    geometry.check_bank(bank)?;
    if number >= geometry.pages() {
        return Err(Refusal::Address);
    }
    let length = geometry.page_words() as usize;
    let first = number as usize * length;
    Ok(&bank[first..first + length])
}
