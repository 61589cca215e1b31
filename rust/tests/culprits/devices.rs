//! Decline 3: each clause, beside a device to which it just does not apply.

use yohrundel::Device;

use crate::sign::Sign;
use crate::{text, Told};

/// What is told of a device that another is changed to.
fn changed(sign: &Sign, change: impl FnOnce(&mut Device)) -> Told {
    let mut sign = sign.clone();
    change(&mut sign.device);
    let told = sign.register_read(0);
    let others = [sign.store(0, 0), sign.start_up(), sign.lower_bank()];
    assert!(told.is_none() || others.iter().all(|other| *other == told));
    told
}

fn at_rest(change: impl FnOnce(&mut Device)) -> Told {
    changed(&Sign::new(), change)
}

/// A page erase of the lower program region runs, and NVMPWP protects nothing.
fn running(change: impl FnOnce(&mut Device)) -> Told {
    changed(&Sign::running(), change)
}

#[test]
fn possible_devices() {
    assert_eq!(at_rest(|_| {}), None);
    assert_eq!(running(|_| {}), None);
}

#[test]
fn bits_outside_a_mask() {
    let nvmcon = text("NVMCON is 0x00000010, with a bit outside its mask 0x0000F0CF");
    assert_eq!(at_rest(|device| device.nvmcon = 0x10), nvmcon);
    assert_eq!(at_rest(|device| device.nvmcon = 0x70CF), None);
    let nvmpwp = text("NVMPWP is 0x81000000, with a bit outside its mask 0x80FFFFFF");
    assert_eq!(at_rest(|device| device.nvmpwp = 0x8100_0000), nvmpwp);
    assert_eq!(at_rest(|device| device.nvmpwp = 0x80FF_FFFF), None);
    let nvmbwp = text("NVMBWP is 0x00009FFF, with a bit outside its mask 0x00009FDF");
    assert_eq!(at_rest(|device| device.nvmbwp = 0x9FFF), nvmbwp);
    assert_eq!(at_rest(|device| device.nvmbwp = 0x9FDF), None);
    let nvmcon2 = text("NVMCON2 is 0x001F0001, with a bit outside its mask 0xF01FB3C0");
    assert_eq!(at_rest(|device| device.nvmcon2 = 0x001F_0001), nvmcon2);
    assert_eq!(at_rest(|device| device.nvmcon2 = 0xF01F_B3C0), None);
}

#[test]
fn bit_six_and_the_key() {
    let nvmbwp = text("NVMBWP is 0x00009F9F, with bit 6 clear");
    assert_eq!(at_rest(|device| device.nvmbwp = 0x9F9F), nvmbwp);
    assert_eq!(at_rest(|device| device.nvmbwp = 0x40), None);
    let nvmkey = text("NVMKEY is 0xAA996655, not 0");
    assert_eq!(at_rest(|device| device.nvmkey = 0xAA99_6655), nvmkey);
    let keystep = text("the key step is 4, above 3");
    assert_eq!(at_rest(|device| device.keystep = 4), keystep);
    assert_eq!(running(|device| device.keystep = 4), keystep);
    assert_eq!(at_rest(|device| device.keystep = 3), None);
}

#[test]
fn what_is_left_of_an_operation_at_rest() {
    let step = text("the step number is 1 with WR = 0, not 0");
    assert_eq!(at_rest(|device| device.step = 1), step);
    let names = ["NVMDATA0", "NVMDATA1", "NVMDATA2", "NVMDATA3"];
    for (number, name) in names.into_iter().enumerate() {
        let expected = format!("the launched {name} is 0x00000001 with WR = 0, not 0");
        let told = at_rest(|device| device.launched.nvmdata[number] = 1);
        assert_eq!(told, text(&expected));
    }
    let address = text("the launched NVMADDR is 0x1D000080 with WR = 0, not 0");
    assert_eq!(
        at_rest(|device| device.launched.nvmaddr = 0x1D00_0080),
        address
    );
    let source = text("the launched NVMSRCADDR is 0x80000000 with WR = 0, not 0");
    assert_eq!(
        at_rest(|device| device.launched.nvmsrcaddr = 1 << 31),
        source
    );
}

#[test]
fn key_and_errors_while_an_operation_runs() {
    let keystep = text("the key step is 1 with WR = 1, not 0");
    assert_eq!(running(|device| device.keystep = 1), keystep);
    let nvmcon = |value: u32| running(|device| device.nvmcon = value);
    assert_eq!(
        nvmcon(0x8004),
        text("NVMCON is 0x00008004: WR = 1 and WRERR = 0")
    );
    assert_eq!(
        nvmcon(0xB004),
        text("NVMCON is 0x0000B004: WR = 1 and LVDERR = 1")
    );
    assert_eq!(nvmcon(0xE004), None);
}

#[test]
fn operations_without_steps() {
    for nvmop in 0..16 {
        let told = running(|device| device.nvmcon = 0xA000 + nvmop);
        let front = format!("NVMCON is 0x0000A00{nvmop:X}: WR = 1, ");
        let expected = match nvmop {
            2..8 => None,
            _ => text(&format!("{front}but no steps begin for NVMOP {nvmop}")),
        };
        assert_eq!(told, expected);
    }
}

/// Around the program regions, which adjoin, and each boot alias.
#[test]
fn targets_around_the_windows() {
    let target = |address: u32| running(|device| device.launched.nvmaddr = address);
    for first in [0x1D00_0000, 0x1FC0_0000, 0x1FC2_0000] {
        let last = if first == 0x1D00_0000 { 0xFF } else { 0x7F };
        for address in [first - 1, first + last + 1] {
            let expected =
                format!("the launched NVMADDR is 0x{address:08X}, outside the four windows");
            assert_eq!(target(address), text(&expected));
        }
        assert_eq!([target(first), target(first + last)], [None, None]);
    }
}

/// "PWP 0 protects nothing", "PWP 1 protects page 0 only"; the second page begins at 0x80.
#[test]
fn protected_targets() {
    let target = |address: u32, nvmpwp: u32| {
        running(|device| {
            device.launched.nvmaddr = address;
            device.nvmpwp = nvmpwp;
        })
    };
    let first =
        "the launched NVMADDR is 0x1D00007F, in a program page that NVMPWP 0x80000001 protects";
    assert_eq!(target(0x1D00_007F, 0x8000_0001), text(first));
    assert_eq!(target(0x1D00_007F, 0x8000_0000), None);
    let second =
        "the launched NVMADDR is 0x1D000080, in a program page that NVMPWP 0x00000080 protects";
    assert_eq!(target(0x1D00_0080, 0x80), text(second));
    assert_eq!(target(0x1D00_0080, 0x7F), None);
    assert_eq!(target(0x1FC0_0000, 0x00FF_FFFF), None);
}

#[test]
fn protected_regions() {
    let region = |nvmop: u32, nvmpwp: u32| {
        running(|device| {
            device.nvmcon = 0xA000 + nvmop;
            device.nvmpwp = nvmpwp;
        })
    };
    let lower = text("NVMPWP is 0x80000001 and protects a page that NVMOP 5 erases");
    assert_eq!(region(5, 0x8000_0001), lower);
    let upper = text("NVMPWP is 0x00000080 and protects a page that NVMOP 6 erases");
    assert_eq!(region(6, 0x80), upper);
    assert_eq!(region(6, 0x7F), None);
    let both = text("NVMPWP is 0x80000001 and protects a page that NVMOP 7 erases");
    assert_eq!(region(7, 0x8000_0001), both);
    assert_eq!([region(5, 1 << 31), region(7, 1 << 31)], [None, None]);
}

/// With Q = P = 1: a quad, a row of one, a page of 8 quads, a region of one page, both.
#[test]
fn steps_past_the_end() {
    for (nvmop, length) in [(2, 1), (3, 1), (4, 8), (5, 8), (6, 8), (7, 16)] {
        let step = |step: u32| {
            running(|device| {
                device.nvmcon = 0xA000 + nvmop;
                device.step = step;
            })
        };
        let expected =
            format!("the step number is {length}, not below {length}, the steps of NVMOP {nvmop}");
        assert_eq!(step(length), text(&expected));
        assert_eq!(step(length - 1), None);
    }
}
