//! W-207: flash reads of a bank that the running operation targets wait for its end.

use model::device::*;
use model::flash::{flash_read, step, Read};
use model::geometry::{Banks, ALL_ONES, LOWER_BOOT, LOWER_PROGRAM, UPPER_BOOT};
use model::sequence::word_of;
use model::{Answer, Refusal};

const SMALL: [u32; 3] = [1, 1, 1];

/// Four quads in a row.
const FOUR: [u32; 3] = [4, 1, 1];

/// Before the first step of an operation; boot pages are free.
fn running(nvmop: u32, address: u32) -> Device {
    let mut device = Device::reset_values();
    device.registers[NVMCON] = WR | WRERR | WREN | nvmop;
    device.registers[NVMADDR] = address;
    device.registers[NVMDATA0..=NVMSRCADDR].copy_from_slice(&[11, 12, 13, 14, 8]);
    device.registers[NVMBWP] = LBWPULOCK | BWP_ALWAYS | UBWPULOCK;
    device.launched = device.loaded();
    device
}

/// Banks of one word, and sequence words.
fn filled(numbers: [u32; 3], fill: u32) -> [Vec<u32>; 2] {
    let words = 64 * numbers[0] as usize;
    let mut banks = [vec![fill; words], vec![fill; words]];
    banks[0][words / 2 - 4] = word_of(2);
    banks[1][words / 2 - 4] = word_of(1);
    banks
}

fn read(
    numbers: [u32; 3],
    device: Device,
    banks: &mut [Vec<u32>; 2],
    sram: &[u32],
    address: u32,
) -> Answer<Read> {
    let [one, two] = banks;
    flash_read(numbers, device, &mut Banks { one, two }, sram, address)
}

/// Steps until the operation ends; how many.
fn stepped(
    numbers: [u32; 3],
    device: Device,
    banks: &mut [Vec<u32>; 2],
    sram: &[u32],
) -> (Device, u32) {
    let [one, two] = banks;
    let mut banks = Banks { one, two };
    let (mut after, mut steps, mut event) = (device, 0, false);
    while after.running() {
        assert!(!event);
        (after, event) = step(numbers, after, &mut banks, sram).unwrap();
        steps += 1;
    }
    assert!(event);
    (after, steps)
}

/// Every NVMOP, from every one of its steps, under every mapping: device, banks and event are those of the steps.
#[test]
fn a_read_that_waits_is_the_remaining_steps() {
    let sram: Vec<u32> = (0..18).collect();
    for (nvmop, length) in [(2, 1), (3, 4), (4, 32), (5, 32), (6, 32), (7, 64)] {
        for (number, mapping) in (0..length).flat_map(|n| [0, 0x40, 0x80, 0xC0].map(|m| (n, m))) {
            let fill = if nvmop < 4 { ALL_ONES } else { 5 };
            let mut device = running(nvmop, LOWER_PROGRAM + 7);
            device.set_con(mapping);
            device.step_number = number;
            let mut expected = filled(FOUR, fill);
            let (after, steps) = stepped(FOUR, device, &mut expected, &sram);
            assert_eq!(steps, length - number);
            let address = if nvmop == 6 { 512 } else { 0 } + LOWER_PROGRAM;
            let mut banks = filled(FOUR, fill);
            let read = read(FOUR, device, &mut banks, &sram, address).unwrap();
            assert_eq!((read.event, read.device), (true, after));
            assert_eq!(banks, expected);
            let bank = usize::from((mapping & PFSWAP != 0) != (nvmop == 6));
            assert_eq!(read.word, expected[bank][128]);
        }
    }
}

#[test]
fn a_read_of_the_other_bank_changes_nothing() {
    for (nvmop, other) in [(2, 1), (3, 1), (4, 1), (5, 1), (6, 0)] {
        let device = running(nvmop, LOWER_PROGRAM);
        let before = filled(SMALL, 5);
        let mut banks = before.clone();
        let addresses = [LOWER_BOOT, UPPER_BOOT];
        let given = read(SMALL, device, &mut banks, &[], addresses[other] + 112).unwrap();
        let word = word_of(2 - other as u16);
        assert_eq!((given.word, given.event), (word, false));
        assert_eq!(given.device, device);
        assert_eq!(banks, before);
    }
}

#[test]
fn both_regions_make_every_read_wait() {
    for address in [LOWER_BOOT, UPPER_BOOT, LOWER_PROGRAM, LOWER_PROGRAM + 128] {
        let mut banks = filled(SMALL, 5);
        let given = read(SMALL, running(7, 0), &mut banks, &[], address).unwrap();
        let word = if address < LOWER_BOOT { ALL_ONES } else { 5 };
        assert_eq!((given.word, given.event), (word, true));
        assert_eq!(given.device.registers[NVMCON], WREN | 7);
        assert!(banks.iter().all(|bank| bank[32..] == [ALL_ONES; 32]));
    }
}

#[test]
fn a_read_at_rest_changes_nothing() {
    for key_step in 0..4 {
        let device = Device {
            key_step,
            ..Device::reset_values()
        };
        let before = filled(SMALL, 5);
        let mut banks = before.clone();
        let given = read(SMALL, device, &mut banks, &[], LOWER_BOOT + 112).unwrap();
        let expected = Read {
            word: word_of(2),
            event: false,
            device,
        };
        assert_eq!(given, expected);
        assert_eq!(banks, before);
    }
}

/// A quad in the middle of a row is not blank, or the SRAM ends there: what stands before it is programmed, and read.
#[test]
fn an_abort_ends_the_waiting() {
    let device = running(3, LOWER_PROGRAM);
    let sram: Vec<u32> = (100..118).collect();
    for (length, spoiled) in [(18, true), (13, false)] {
        let mut banks = filled(FOUR, ALL_ONES);
        if spoiled {
            banks[0][128 + 8] = !1;
        }
        let given = read(
            FOUR,
            device,
            &mut banks,
            &sram[..length],
            LOWER_PROGRAM + 16,
        );
        let given = given.unwrap();
        assert_eq!((given.word, given.event), (106, true));
        assert_eq!(given.device.registers[NVMCON], WREN | WRERR | 3);
        assert_eq!(
            (given.device.step_number, given.device.launched),
            (0, Operands::NONE)
        );
        assert_eq!(banks[0][128..136], sram[2..10]);
        assert_eq!(banks[0][137..144], [ALL_ONES; 7]);
    }
}

#[test]
fn a_protected_boot_page_stays() {
    for nvmop in 2..5 {
        let mut device = running(nvmop, LOWER_BOOT);
        device.registers[NVMBWP] |= LBWP;
        let before = filled(SMALL, 5);
        let mut banks = before.clone();
        let given = read(SMALL, device, &mut banks, &[], LOWER_BOOT).unwrap();
        assert_eq!((given.word, given.event), (5, true));
        assert_eq!(given.device.registers[NVMCON], WREN | nvmop);
        assert_eq!(banks, before);
    }
}

#[test]
fn a_declined_read_carries_out_no_step() {
    let device = running(4, LOWER_PROGRAM);
    let before = filled(SMALL, 5);
    let long = vec![0; 16_385];
    for (numbers, device, sram, address, refusal) in [
        ([3, 1, 1], device, &[][..], LOWER_PROGRAM, Refusal::Geometry),
        ([2, 1, 1], device, &[][..], LOWER_PROGRAM, Refusal::Length),
        (SMALL, device, &long[..], LOWER_PROGRAM, Refusal::Length),
        (SMALL, device, &[][..], LOWER_PROGRAM + 2, Refusal::Address),
        (
            SMALL,
            device,
            &[][..],
            LOWER_PROGRAM + 256,
            Refusal::Address,
        ),
    ] {
        let mut banks = before.clone();
        let refused = read(numbers, device, &mut banks, sram, address);
        assert_eq!(refused, Err(refusal));
        assert_eq!(banks, before);
    }
    let step_number = 8;
    let impossible = Device {
        step_number,
        ..device
    };
    let refused = read(SMALL, impossible, &mut before.clone(), &[], LOWER_PROGRAM);
    assert_eq!(refused, Err(Refusal::Device));
}
