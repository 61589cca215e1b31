//! Clauses of declines 3 and 10 as the crate and as the model give them, in the paper's words.

use model::clauses::{DeviceClause as OutsideDevice, SequenceClause as OutsideSequence};
use yohrundel::culprit::{DeviceClause, SequenceClause};

/// A clause in the paper's words, which of its cases it is, and the numbers that show it.
pub type Named = (&'static str, u32, Vec<u32>);

const UNIMPLEMENTED: &str = "an unimplemented bit set";
const BIT_SIX: &str = "NVMBWP bit 6 clear";
const KEY: &str = "NVMKEY not 0";
const KEY_STEP: &str = "key step above 3";
const STEP_AT_REST: &str = "WR = 0 with step number not 0";
const LAUNCHED: &str = "all 0 while WR is 0";
const KEY_STEP_RUNNING: &str = "WR = 1 with key step not 0";
const WRERR: &str = "WRERR = 0";
const LVDERR: &str = "LVDERR = 1";
const NVMOP: &str = "an NVMOP for which no steps begin";
const OUTSIDE: &str = "outside the four windows";
const PROTECTED: &str = "in a protected program page";
const REGION: &str = "any page in it is protected";
const PAST_END: &str = "step number not below its length";
const INVALID: &str = "the lower-alias bank's sequence is invalid";
const CHOSEN: &str = "a reset would choose the other bank";
const SWAPS: &str = "PFSWAP differs from BFSWAP";
const DISJOINT: &str = "no bit position at 1 in both halves";

/// Each clause and its cases: by register, by NVMOP, by bank, by the bank that would be chosen and why, by the bits of the mapping.
pub const CLAUSES: [(&str, &[u32]); 18] = [
    (UNIMPLEMENTED, &[0, 8, 9, 10]),
    (BIT_SIX, &[0]),
    (KEY, &[0]),
    (KEY_STEP, &[0]),
    (STEP_AT_REST, &[0]),
    (LAUNCHED, &[2, 3, 4, 5, 6, 7]),
    (KEY_STEP_RUNNING, &[0]),
    (WRERR, &[0]),
    (LVDERR, &[0]),
    (NVMOP, &[0, 1, 8, 9, 10, 11, 12, 13, 14, 15]),
    (OUTSIDE, &[0]),
    (PROTECTED, &[0]),
    (REGION, &[5, 6, 7]),
    (PAST_END, &[2, 3, 4, 5, 6, 7]),
    (INVALID, &[1, 2]),
    // The higher number in bank 1 or 2, and equal numbers with bank 2 on the lower alias.
    (CHOSEN, &[1, 2, 11]),
    (SWAPS, &[0x40, 0x80]),
    (DISJOINT, &[1, 2]),
];

pub fn device_name(clause: DeviceClause) -> Named {
    use DeviceClause::*;
    match clause {
        UnimplementedBit { register, value } => (UNIMPLEMENTED, register, vec![value]),
        BitSixClear { nvmbwp } => (BIT_SIX, 0, vec![nvmbwp]),
        KeyNotZero { nvmkey } => (KEY, 0, vec![nvmkey]),
        KeyStepAboveThree { keystep } => (KEY_STEP, 0, vec![keystep]),
        StepAtRest { step } => (STEP_AT_REST, 0, vec![step]),
        LaunchedAtRest { register, value } => (LAUNCHED, register, vec![value]),
        KeyStepRunning { keystep } => (KEY_STEP_RUNNING, 0, vec![keystep]),
        NoWriteError { nvmcon } => (WRERR, 0, vec![nvmcon]),
        LowVoltageError { nvmcon } => (LVDERR, 0, vec![nvmcon]),
        NoOperation { nvmcon } => (NVMOP, nvmcon & 15, vec![nvmcon]),
        TargetOutside { address } => (OUTSIDE, 0, vec![address]),
        TargetProtected { address, nvmpwp } => (PROTECTED, 0, vec![address, nvmpwp]),
        RegionProtected { nvmop, nvmpwp } => (REGION, nvmop, vec![nvmpwp]),
        StepPastEnd {
            nvmop,
            step,
            length,
        } => (PAST_END, nvmop, vec![step, length]),
    }
}

pub fn outside_device_name(clause: OutsideDevice) -> Named {
    use OutsideDevice::*;
    match clause {
        Unimplemented { register, value } => (UNIMPLEMENTED, register as u32, vec![value]),
        BitSixClear { nvmbwp } => (BIT_SIX, 0, vec![nvmbwp]),
        KeyNotZero { nvmkey } => (KEY, 0, vec![nvmkey]),
        KeyStepAbove { key_step } => (KEY_STEP, 0, vec![key_step]),
        StepAtRest { step_number } => (STEP_AT_REST, 0, vec![step_number]),
        LaunchedAtRest { register, value } => (LAUNCHED, register as u32, vec![value]),
        KeyStepRunning { key_step } => (KEY_STEP_RUNNING, 0, vec![key_step]),
        NoWrerr { nvmcon } => (WRERR, 0, vec![nvmcon]),
        Lvderr { nvmcon } => (LVDERR, 0, vec![nvmcon]),
        NoOperation { nvmcon } => (NVMOP, nvmcon & 15, vec![nvmcon]),
        Outside { address } => (OUTSIDE, 0, vec![address]),
        ProtectedPage { address, nvmpwp } => (PROTECTED, 0, vec![address, nvmpwp]),
        ProtectedRegion { nvmop, nvmpwp } => (REGION, nvmop, vec![nvmpwp]),
        StepPastEnd {
            nvmop,
            step_number,
            length,
        } => (PAST_END, nvmop, vec![step_number, length]),
    }
}

pub fn sequence_name(clause: SequenceClause) -> Named {
    use SequenceClause::*;
    match clause {
        LowerInvalid { bank, word } => (INVALID, bank.number(), vec![word]),
        OtherChosen {
            bank,
            reason,
            words,
        } => chosen(bank.number(), reason.number(), words),
        SwapsDiffer { nvmcon } => (SWAPS, nvmcon & 0xC0, vec![nvmcon]),
        OtherDisjoint { bank, word } => (DISJOINT, bank.number(), vec![word]),
    }
}

pub fn outside_sequence_name(clause: OutsideSequence) -> Named {
    use OutsideSequence::*;
    match clause {
        LowerInvalid { bank, word } => (INVALID, bank.number(), vec![word]),
        OtherChosen {
            bank,
            reason,
            words,
        } => chosen(bank.number(), reason.number(), words),
        SwapsDiffer { nvmcon } => (SWAPS, nvmcon & 0xC0, vec![nvmcon]),
        OtherDisjoint { bank, word } => (DISJOINT, bank.number(), vec![word]),
    }
}

fn chosen(bank: u32, reason: u32, words: [u32; 2]) -> Named {
    (CHOSEN, 10 * reason + bank, words.to_vec())
}
