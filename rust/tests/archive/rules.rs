//! Rules of the paper that no call gives by itself, as a call meets them.

use yohrundel::form::SET;
use yohrundel::nvmcon::{BFSWAP, PFSWAP, WR, WREN};
use yohrundel::register::NVMCON;
use yohrundel::*;

use crate::inputs::Inputs;

/// The comparison, as a power-on of a small sign makes it.
pub fn compare(inputs: &mut Inputs) -> u32 {
    let sign = Geometry { q: 1, b: 1, p: 1 };
    let [mut one, mut two] = [(); 2].map(|()| {
        let mut bank = [0; 64];
        bank[28] = inputs.number();
        bank
    });
    let restarted =
        reset(sign, Device::power_on(), &mut one, &mut two, &[], 0, [0; 4]).expect("a power-on");
    1 + u32::from(restarted.device.nvmcon & BFSWAP != 0)
}

/// Decline 3, as a register read meets it.
pub fn possible(inputs: &mut Inputs) -> bool {
    let (sign, device) = (inputs.geometry(), inputs.device());
    register_read(sign, device, NVMCON) != Err(Decline::Device)
}

/// Protection, as a page erase meets it: the launch fails in a program page, and the first step changes nothing in a boot page.
pub fn protected(inputs: &mut Inputs) -> bool {
    let (sign, device) = (inputs.geometry(), inputs.device());
    let (kind, side, page) = (inputs.number(), inputs.number(), inputs.number());
    let words = sign.page_words().expect("a page's words") as u32;
    let window = match (kind, side) {
        (0, 0) => 0x1FC0_0000,
        (0, _) => 0x1FC2_0000,
        (_, side) => 0x1D00_0000 + side * sign.p * 4 * words,
    };
    let erase = Device {
        nvmcon: device.nvmcon & (BFSWAP | PFSWAP) | WREN | 4,
        nvmaddr: window + page * 4 * words,
        keystep: 3,
        launched: Operands::default(),
        ..device
    };
    let launched = store(sign, erase, NVMCON, SET, WR)
        .expect("a launch")
        .device;
    if kind == 1 {
        return !launched.operation_runs();
    }
    let mut one = vec![0; sign.bank_words().expect("a bank's words")];
    let mut two = one.clone();
    step(sign, launched, &mut one, &mut two, &[]).expect("a step");
    one.iter().chain(&two).all(|word| *word == 0)
}
