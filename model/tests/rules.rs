//! Single rules of the paper, the traps among them.

use model::device::*;
use model::flash::{reset, step};
use model::generate::old_bank_one;
use model::geometry::{Banks, Geometry, ALL_ONES};
use model::store::{register_read, start_up, store, CLEAR, INVERT, PLAIN, SET};
use model::update::{total, turn};
use model::Refusal;

const SMALL: [u32; 3] = [1, 1, 1];

fn stored(device: Device, register: usize, form: u32, value: u32) -> Device {
    store(SMALL, device, register as u32, form, value)
        .unwrap()
        .0
}

fn with_key(device: Device) -> Device {
    let mut after = device;
    for value in [0, 0xAA99_6655, 0x5566_99AA] {
        after = stored(after, NVMKEY, PLAIN, value);
    }
    assert_eq!(after.key_step, 3);
    after
}

/// A device ready for the launching store.
fn ready(nvmop: u32, address: u32) -> Device {
    let mut device = stored(Device::reset_values(), NVMADDR, PLAIN, address);
    device = stored(device, NVMCON, PLAIN, nvmop);
    with_key(stored(device, NVMCON, SET, WREN))
}

fn small_banks() -> [Vec<u32>; 2] {
    old_bank_one(&Geometry::new(SMALL).unwrap(), 12)
}

#[test]
fn a_store_is_judged_by_the_state_before_it() {
    let device = stored(Device::reset_values(), NVMCON, PLAIN, WREN | 4);
    assert_eq!(device.registers[NVMCON], WREN | 4);
    let device = stored(device, NVMCON, PLAIN, 2);
    assert_eq!(device.registers[NVMCON], 4);
    let both = with_key(Device::reset_values());
    let both = stored(both, NVMCON, PLAIN, WR | WREN | 0xC4);
    assert_eq!(both.registers[NVMCON], WREN | 0xC4);
}

#[test]
fn a_launching_store_takes_wren() {
    let device = stored(ready(4, 0x1D00_0000), NVMCON, PLAIN, WR);
    assert_eq!(device.registers[NVMCON], WR | WRERR | 4);
    assert_eq!(device.key_step, 0);
    let refused = store(SMALL, device, 0, PLAIN, 0);
    assert_eq!(refused, Err(Refusal::Running));
}

#[test]
fn locks_fall_and_fields_follow_the_lock_before() {
    let device = stored(with_key(Device::reset_values()), NVMPWP, PLAIN, 0x123);
    assert_eq!(device.registers[NVMPWP], 0x123);
    let device = stored(with_key(device), NVMPWP, PLAIN, ALL_ONES);
    assert_eq!(device.registers[NVMPWP], 0x123);
    let device = stored(device, NVMBWP, CLEAR, 0x1F);
    assert_eq!(device.registers[NVMBWP], 0x9FDF);
    let device = stored(with_key(device), NVMBWP, INVERT, ALL_ONES);
    assert_eq!(device.registers[NVMBWP], BWP_ALWAYS);
}

#[test]
fn a_failure_is_an_event_with_wrerr() {
    let (device, event) = store(SMALL, ready(4, 0x1D00_0100), 0, SET, WR).unwrap();
    assert!(event);
    assert_eq!(device.registers[NVMCON], WREN | WRERR | 4);
    let again = store(SMALL, with_key(device), 0, SET, WR).unwrap();
    assert_eq!(again, (device, false));
}

#[test]
fn steps_in_a_protected_boot_page_change_nothing() {
    let [mut one, mut two] = small_banks();
    let before = one.clone();
    let mut banks = Banks {
        one: &mut one,
        two: &mut two,
    };
    let mut device = stored(ready(4, 0x1FC0_0000), NVMCON, SET, WR);
    for number in 1..=8 {
        let (after, event) = step(SMALL, device, &mut banks, &[]).unwrap();
        assert_eq!(event, number == 8);
        device = after;
    }
    assert_eq!(device.registers[NVMCON], WREN | 4);
    assert_eq!(one, before);
}

#[test]
fn protection_follows_the_mapping() {
    let mut device = Device::reset_values();
    device.registers[NVMPWP] |= 1;
    for swap in [0, PFSWAP] {
        device.registers[NVMCON] = swap | WREN | 5;
        device.key_step = 3;
        assert!(store(SMALL, device, 0, SET, WR).unwrap().1);
        device.registers[NVMCON] = swap | WREN | 6;
        let (after, event) = store(SMALL, device, 0, SET, WR).unwrap();
        assert!(!event && after.running());
    }
}

#[test]
fn a_brown_out_tears_and_keeps_nvmers() {
    let [mut one, mut two] = small_banks();
    let mut banks = Banks {
        one: &mut one,
        two: &mut two,
    };
    let device = stored(Device::reset_values(), NVMCON2, SET, 0x5000_0300);
    let mut running = stored(ready(2, 0x1D00_0080), NVMCON, SET, WR);
    running.registers[NVMCON2] = device.registers[NVMCON2];
    let mask = [0xFF, 0, ALL_ONES, 0xF000_0000];
    let restart = reset(SMALL, running, &mut banks, &[], 1, mask).unwrap();
    let after = restart.device;
    assert_eq!(after.registers[NVMCON], WRERR | LVDERR | 2);
    assert_eq!(after.registers[NVMCON2], 0x501F_0000);
    assert_eq!(two[32..36], [0xFFFF_FF00, ALL_ONES, 0, 0x0FFF_FFFF]);
}

#[test]
fn register_reads_and_the_key() {
    let open = with_key(Device::reset_values());
    let (value, after) = register_read(SMALL, open, NVMBWP as u32).unwrap();
    assert_eq!((value, after.key_step), (0x9FDF, 0));
    for (before, left) in [(0, 0), (1, 1), (2, 0), (3, 0)] {
        let key_step = before;
        let device = Device { key_step, ..open };
        let (_, after) = register_read(SMALL, device, NVMCON as u32).unwrap();
        let expected = Device {
            key_step: left,
            ..device
        };
        assert_eq!(after, expected);
    }
}

#[test]
fn start_up_sets_pfswap_only_beside_bfswap() {
    let mut device = Device::reset_values();
    assert!(!start_up(SMALL, device).unwrap().con(PFSWAP));
    device.set_con(BFSWAP);
    let after = start_up(SMALL, device).unwrap();
    assert_eq!(after.registers[NVMCON], PFSWAP | BFSWAP);
    assert_eq!(after.registers[NVMCON2], 0x001F_00C0);
}

#[test]
fn a_turn_at_and_beyond_the_total() {
    let [mut one, mut two] = small_banks();
    let image = one.clone();
    let mut banks = Banks {
        one: &mut one,
        two: &mut two,
    };
    let total = total(&Geometry::new(SMALL).unwrap());
    let running = stored(ready(4, 0x1D00_0080), NVMCON, SET, WR);
    let mut at = |place| turn(SMALL, running, &mut banks, &image, &[], place);
    let done = at(total).unwrap();
    assert!(done.done && done.device == running && done.place == total && !done.event);
    assert_eq!(at(total + 1), Err(Refusal::Place));
    assert_eq!(at(0), Err(Refusal::Running));
}
