//! Declines 4 to 7.

use crate::sign::Sign;
use crate::text;

#[test]
fn registers_and_forms() {
    let sign = Sign::new();
    for register in [11, u32::MAX] {
        let expected = text(&format!("the register is {register}, not 0 to 10"));
        assert_eq!(sign.store(register, 9), expected);
        assert_eq!(sign.register_read(register), expected);
    }
    assert_eq!(sign.register_read(10), None);
    assert_eq!(sign.store(10, 4), text("the form is 4, not 0 to 3"));
    assert_eq!(sign.store(10, 3), None);
    assert_eq!(sign.store(1, 4), text("the form is 4, not 0 to 3"));
    for form in 1..4 {
        let expected = format!("the form is {form}, and NVMKEY has form 0 only");
        assert_eq!(sign.store(1, form), text(&expected));
    }
    assert_eq!(sign.store(1, 0), None);
}

/// Stores to registers 2 to 7 are accepted.
#[test]
fn stores_while_an_operation_runs() {
    let names = ["NVMCON", "NVMKEY", "NVMPWP", "NVMBWP", "NVMCON2"];
    for (register, name) in [0, 1, 8, 9, 10].into_iter().zip(names) {
        let expected = format!("a store to {name} with WR = 1: NVMCON is 0x0000A004");
        assert_eq!(Sign::running().store(register, 0), text(&expected));
        assert_eq!(Sign::new().store(register, 0), None);
    }
    for register in 2..8 {
        assert_eq!(Sign::running().store(register, 0), None);
    }
}

#[test]
fn start_up_and_update_start_while_an_operation_runs() {
    let sign = Sign::running();
    let start_up = text("a start-up with WR = 1: NVMCON is 0x0000A004");
    assert_eq!(sign.start_up(), start_up);
    let start = text("an update start with WR = 1: NVMCON is 0x0000A004");
    assert_eq!(
        [sign.update_start(), sign.write_script(0)],
        [start.clone(), start]
    );
    let sign = Sign::new();
    assert_eq!([sign.start_up(), sign.update_start()], [None, None]);
}

#[test]
fn a_step_at_rest() {
    let mut sign = Sign::new();
    sign.device.nvmcon = 0x4004;
    assert_eq!(
        sign.step(),
        text("a step with WR = 0: NVMCON is 0x00004004")
    );
    assert_eq!(Sign::running().step(), None);
}

#[test]
fn reset_kinds() {
    let sign = Sign::new();
    for kind in [3, u32::MAX] {
        let expected = text(&format!("the reset kind is {kind}, not 0 to 2"));
        assert_eq!(sign.reset(kind), expected);
    }
    assert_eq!([0, 1, 2].map(|kind| sign.reset(kind)), [None, None, None]);
}
