//! W-209: stores while an operation runs, and what it was launched with.

use model::device::*;
use model::flash::{flash_read, reset, step};
use model::geometry::{Banks, Geometry, ALL_ONES, LOWER_PROGRAM, UPPER_BOOT};
use model::sequence::word_of;
use model::store::{register_read, start_up, store, INVERT, KEYS, PLAIN, SET};
use model::update::{program_place, turn, update_start};
use model::Refusal;

const SMALL: [u32; 3] = [1, 1, 1];

const MASK: [u32; 4] = [0x0000_FFFF, ALL_ONES, 0, 0xF0F0_F0F0];

fn stored(device: Device, register: usize, form: u32, value: u32) -> Device {
    store(SMALL, device, register as u32, form, value)
        .unwrap()
        .0
}

fn keyed(device: Device) -> Device {
    let key = |device, key| stored(device, NVMKEY, PLAIN, key);
    KEYS.into_iter().fold(device, key)
}

/// The six registers with six values.
fn loaded(device: Device, values: [u32; 6]) -> Device {
    let load = |device, (number, value)| stored(device, NVMADDR + number, PLAIN, value);
    values.into_iter().enumerate().fold(device, load)
}

/// The six registers with six values, NVMOP, WREN, keys and launch; boot pages are free.
fn launched(nvmop: u32, values: [u32; 6]) -> Device {
    let device = keyed(loaded(Device::reset_values(), values));
    let device = stored(device, NVMBWP, PLAIN, 0x80C0);
    let device = stored(device, NVMCON, PLAIN, nvmop);
    let device = keyed(stored(device, NVMCON, SET, WREN));
    stored(device, NVMCON, SET, WR)
}

fn blank() -> [Vec<u32>; 2] {
    let mut banks = [vec![ALL_ONES; 64], vec![ALL_ONES; 64]];
    banks[0][28] = word_of(1);
    banks
}

const FIRST: [u32; 6] = [LOWER_PROGRAM + 5, 11, 12, 13, 14, 21];
const LATER: [u32; 6] = [UPPER_BOOT + 9, 31, 32, 33, 34, 41];

#[test]
fn a_launch_records_the_registers_unrounded() {
    for nvmop in 2..8 {
        let device = launched(nvmop, FIRST);
        assert!(device.running());
        assert_eq!(device.launched.numbers(), FIRST);
    }
}

#[test]
fn a_launch_without_steps_records_nothing() {
    let outside = [LOWER_PROGRAM + 256, 11, 12, 13, 14, 21];
    for (nvmop, values) in [(0, FIRST), (1, FIRST), (8, FIRST), (4, outside)] {
        let device = launched(nvmop, values);
        assert!(!device.running());
        assert_eq!(device.launched, Operands::NONE);
        assert!(possible(&Geometry::new(SMALL).unwrap(), &device));
    }
}

#[test]
fn a_store_while_running_changes_its_register_alone() {
    let device = launched(4, FIRST);
    for register in NVMADDR..=NVMSRCADDR {
        let mut expected = device;
        expected.registers[register] ^= 0xF0F0_0001;
        let after = store(SMALL, device, register as u32, INVERT, 0xF0F0_0001);
        assert_eq!(after, Ok((expected, false)));
        let read = register_read(SMALL, expected, register as u32);
        assert_eq!(read, Ok((expected.registers[register], expected)));
    }
    for register in [NVMCON, NVMKEY, NVMPWP, NVMBWP, NVMCON2] {
        let refused = store(SMALL, device, register as u32, PLAIN, 0);
        assert_eq!(refused, Err(Refusal::Running));
    }
    assert_eq!(start_up(SMALL, device), Err(Refusal::Running));
    let refused = store(SMALL, device, NVMADDR as u32, 4, 0);
    assert_eq!(refused, Err(Refusal::Register));
}

#[test]
fn a_program_writes_what_it_was_launched_with() {
    let [mut one, mut two] = blank();
    let mut banks = Banks {
        one: &mut one,
        two: &mut two,
    };
    let device = loaded(launched(2, FIRST), LATER);
    let (after, event) = step(SMALL, device, &mut banks, &[]).unwrap();
    assert!(event && !after.running());
    assert_eq!(after.launched, Operands::NONE);
    assert_eq!(after.loaded().numbers(), LATER);
    let next = stored(keyed(after), NVMCON, SET, WR);
    assert_eq!(next.launched.numbers(), LATER);
    let (after, _) = step(SMALL, next, &mut banks, &[]).unwrap();
    assert_eq!(after.registers[NVMCON], WREN | 2);
    assert_eq!(one[32..36], [11, 12, 13, 14]);
    assert_eq!(two[0..4], [31, 32, 33, 34]);
}

#[test]
fn a_row_reads_the_source_it_was_launched_with() {
    let sram: Vec<u32> = (0..8).collect();
    let rows = [
        (8, 3, Some([2, 3, 4, 5])),
        (3, 8, None),
        (8, 64, Some([2, 3, 4, 5])),
    ];
    for (source, other, written) in rows {
        let [mut one, mut two] = blank();
        let mut banks = Banks {
            one: &mut one,
            two: &mut two,
        };
        let device = launched(3, [LOWER_PROGRAM, 0, 0, 0, 0, source]);
        let device = stored(device, NVMSRCADDR, PLAIN, other);
        let (after, event) = step(SMALL, device, &mut banks, &sram).unwrap();
        assert!(event);
        assert_eq!(after.con(WRERR), written.is_none());
        assert_eq!(after.launched, Operands::NONE);
        assert_eq!(one[32..36], written.unwrap_or([ALL_ONES; 4]));
    }
}

#[test]
fn a_step_before_the_last_keeps_what_was_launched() {
    let [mut one, mut two] = blank();
    let mut banks = Banks {
        one: &mut one,
        two: &mut two,
    };
    let mut device = loaded(launched(4, FIRST), LATER);
    for number in 1..=8 {
        assert_eq!(device.launched.numbers(), FIRST);
        device = step(SMALL, device, &mut banks, &[]).unwrap().0;
        assert_eq!(device.running(), number < 8);
    }
    assert_eq!(device.launched, Operands::NONE);
}

#[test]
fn a_reset_tears_by_what_was_launched() {
    for kind in 0..3 {
        let [mut one, mut two] = blank();
        let mut banks = Banks {
            one: &mut one,
            two: &mut two,
        };
        let device = loaded(launched(2, FIRST), LATER);
        let after = reset(SMALL, device, &mut banks, &[], kind, MASK);
        let after = after.unwrap().device;
        assert_eq!(after.launched, Operands::NONE);
        let kept = if kind == 0 { [0; 6] } else { LATER };
        assert_eq!(after.loaded().numbers(), kept);
        assert_eq!(one[32..36], [0xFFFF_000B, 12, ALL_ONES, 0x0F0F_0F0F]);
        assert_eq!(two, [ALL_ONES; 64]);
    }
}

#[test]
fn a_flash_read_asks_the_launched_target() {
    let [mut one, mut two] = blank();
    let mut banks = Banks {
        one: &mut one,
        two: &mut two,
    };
    let device = loaded(launched(4, FIRST), LATER);
    let other = flash_read(SMALL, device, &mut banks, &[], UPPER_BOOT).unwrap();
    assert_eq!((other.event, other.device), (false, device));
    let target = flash_read(SMALL, device, &mut banks, &[], LOWER_PROGRAM).unwrap();
    assert!(target.event && !target.device.running());
    assert_eq!(target.device.launched, Operands::NONE);
    assert_eq!(target.device.loaded().numbers(), LATER);
}

#[test]
fn decline_3_judges_what_was_launched() {
    let geometry = Geometry::new(SMALL).unwrap();
    let device = launched(4, FIRST);
    let mut later = device;
    later.registers[NVMADDR] = 0;
    assert!(possible(&geometry, &later));
    let mut outside = device;
    outside.launched.address = 0;
    assert!(!possible(&geometry, &outside));
    for number in 0..6 {
        let mut values = [0; 6];
        values[number] = 1;
        let [address, source] = [values[0], values[5]];
        let data = [values[1], values[2], values[3], values[4]];
        let launched = Operands {
            address,
            data,
            source,
        };
        let idle = Device {
            launched,
            ..Device::reset_values()
        };
        assert!(!possible(&geometry, &idle));
    }
}

#[test]
fn a_turn_loads_while_running() {
    let [mut one, mut two] = blank();
    let image: Vec<u32> = (0..64).collect();
    let mut banks = Banks {
        one: &mut one,
        two: &mut two,
    };
    let device = launched(5, FIRST);
    let refused = update_start(SMALL, &device, &banks, &image);
    assert_eq!(refused, Err(Refusal::Running));
    let programming = program_place(&Geometry::new(SMALL).unwrap());
    for number in 0..13 {
        let place = programming + number;
        let after = turn(SMALL, device, &mut banks, &image, &[], place);
        match number {
            0..=4 => {
                let after = after.unwrap();
                assert_eq!((after.place, after.event), (place + 1, false));
                assert_eq!(after.device.launched, device.launched);
                assert_ne!(after.device.registers, device.registers);
            }
            11 => assert!(after.unwrap().device.step_number == 1),
            _ => assert_eq!(after, Err(Refusal::Running)),
        }
    }
}
