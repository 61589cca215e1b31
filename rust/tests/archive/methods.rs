//! The methods of `Sign`: each gives and leaves what the function of the same name does, which other tests compare with the model.

use std::fmt::Debug;

use model::cases::Case;
use model::generate::{accepted_start, Cases, DEFAULT_WORDS};
use model::geometry::Geometry as OutsideGeometry;
use model::random::Random;
use yohrundel::*;

use crate::inputs::Inputs;
use crate::settings::{cases, seed, Report};
use crate::sign;

/// The bytes of a buffer that holds the output of every call below.
const BUFFER: usize = 1 << 16;

/// Makes a call by its method and by its function, on copies of a sign. The function gives the device beside what the method gives.
fn compare<T: Debug + PartialEq>(
    sign: &Sign,
    method: impl FnOnce(&mut Sign) -> Result<T, Decline>,
    function: impl FnOnce(Geometry, Device, &mut [u32], &mut [u32]) -> Result<(T, Device), Decline>,
) {
    let (mut left, mut expected) = (sign.clone(), sign.clone());
    let given = method(&mut left);
    let [one, two] = &mut expected.banks;
    let made = function(sign.geometry, sign.device, one, two).map(|(value, device)| {
        expected.device = device;
        value
    });
    assert_eq!(given, made);
    assert!(left == expected, "{left:X?}\n{expected:X?}");
}

/// The sign of a case without banks.
fn device_alone(inputs: &mut Inputs) -> Sign {
    Sign {
        geometry: inputs.geometry(),
        device: inputs.device(),
        banks: [Vec::new(), Vec::new()],
    }
}

/// The sign of a case with banks.
fn whole(inputs: &mut Inputs) -> Sign {
    let mut sign = device_alone(inputs);
    sign.banks = [inputs.list(), inputs.list()];
    sign
}

fn store_case(inputs: &mut Inputs) {
    let sign = device_alone(inputs);
    let (register, form, value) = (inputs.number(), inputs.number(), inputs.number());
    let method = |sign: &mut Sign| sign.store(register, form, value);
    compare(&sign, method, |geometry, device, _, _| {
        let stored = store(geometry, device, register, form, value)?;
        Ok((stored.event, stored.device))
    });
}

fn register_read_case(inputs: &mut Inputs) {
    let (sign, register) = (device_alone(inputs), inputs.number());
    let method = |sign: &mut Sign| sign.register_read(register);
    compare(&sign, method, |geometry, device, _, _| {
        let read = register_read(geometry, device, register)?;
        Ok((read.value, read.device))
    });
}

/// A start-up, whole and cut after each of its stores.
fn start_up_case(inputs: &mut Inputs) {
    let sign = device_alone(inputs);
    compare(&sign, Sign::start_up, |geometry, device, _, _| {
        Ok(((), start_up(geometry, device)?))
    });
    for stores in 0..6 {
        let method = |sign: &mut Sign| sign.cut_start_up(stores);
        compare(&sign, method, |geometry, device, _, _| {
            Ok(((), cut_start_up(geometry, device, stores)?))
        });
    }
}

fn flash_read_case(inputs: &mut Inputs) {
    let (sign, sram, address) = (whole(inputs), inputs.list(), inputs.number());
    let method = |sign: &mut Sign| sign.flash_read(&sram, address);
    compare(&sign, method, |geometry, device, one, two| {
        let read = flash_read(geometry, device, one, two, &sram, address)?;
        Ok((read, read.device))
    });
}

fn step_case(inputs: &mut Inputs) {
    let (sign, sram) = (whole(inputs), inputs.list());
    let method = |sign: &mut Sign| sign.step(&sram);
    compare(&sign, method, |geometry, device, one, two| {
        let stepped = step(geometry, device, one, two, &sram)?;
        Ok((stepped.event, stepped.device))
    });
}

fn reset_case(inputs: &mut Inputs) {
    let (sign, sram) = (whole(inputs), inputs.list());
    let (kind, mask) = (inputs.number(), inputs.four());
    let method = |sign: &mut Sign| sign.reset(&sram, kind, mask);
    compare(&sign, method, |geometry, device, one, two| {
        let restarted = reset(geometry, device, one, two, &sram, kind, mask)?;
        Ok((restarted.reason, restarted.device))
    });
}

fn turn_case(inputs: &mut Inputs) {
    let (sign, image, sram) = (whole(inputs), inputs.list(), inputs.list());
    let place = inputs.number();
    let method = |sign: &mut Sign| sign.turn(&image, &sram, place);
    compare(&sign, method, |geometry, device, one, two| {
        let turned = turn(geometry, device, one, two, &image, &sram, place)?;
        Ok((turned.outcome, turned.device))
    });
}

/// The lent bank itself.
fn lower_bank_case(inputs: &mut Inputs) {
    let sign = whole(inputs);
    let [one, two] = &sign.banks;
    let expected = lower_bank(sign.geometry, sign.device, one, two);
    let place = <[u32]>::as_ptr_range;
    assert_eq!(sign.lower_bank().map(place), expected.map(place));
}

/// The same page of both banks, of which one is as long as the case says.
fn page_case(inputs: &mut Inputs) {
    let mut sign = Sign::power_on(inputs.geometry(), [Vec::new(), Vec::new()]);
    sign.banks[0] = inputs.list();
    let (number, place) = (inputs.number(), <[u32]>::as_ptr_range);
    for bank in [Bank::One, Bank::Two] {
        let expected = page(
            sign.geometry,
            &sign.banks[bank.number() as usize - 1],
            number,
        );
        assert_eq!(sign.page(bank, number).map(place), expected.map(place));
    }
}

fn update_start_case(inputs: &mut Inputs) {
    let (sign, image) = (whole(inputs), inputs.list());
    let [one, two] = &sign.banks;
    let expected = update_start(sign.geometry, sign.device, one, two, &image);
    assert_eq!(sign.update_start(&image), expected);
}

fn page_sheet_case(inputs: &mut Inputs) {
    let (sign, mut buffer) = (whole(inputs), vec![0; BUFFER]);
    let [one, two] = &sign.banks;
    let bytes = page_sheet(sign.geometry, sign.device, one, two, &mut buffer);
    assert_eq!(
        sign.page_sheet(),
        bytes.map(|bytes| buffer[..bytes].to_vec())
    );
}

fn write_script_case(inputs: &mut Inputs) {
    let (sign, image, mut buffer) = (whole(inputs), inputs.list(), vec![0; BUFFER]);
    let [one, two] = &sign.banks;
    let records = write_script(sign.geometry, sign.device, one, two, &image, &mut buffer);
    let expected = records.map(|records| buffer[..8 * records as usize].to_vec());
    assert_eq!(sign.write_script(&image), expected);
}

/// The smallest script, on scratch banks of the right length, and the play of the whole one.
fn smallest_case(inputs: &mut Inputs) {
    let (sign, sram) = (whole(inputs), inputs.list());
    let [mut first, mut second] = [inputs.list(), inputs.list()];
    let (script, number, mut result) = (inputs.bytes(), inputs.number(), inputs.bytes());
    let [one, two] = &sign.banks;
    let lengths = [first.len(), second.len(), result.len()];
    if lengths == [one.len(), two.len(), script.len()] {
        let (geometry, device, sram) = (sign.geometry, sign.device, &sram);
        let bench = Bench {
            geometry,
            device,
            one,
            two,
            sram,
        };
        let records = smallest(
            bench,
            [&mut first, &mut second],
            &script,
            number,
            &mut result,
        );
        let expected = records.map(|records| result[..8 * records as usize].to_vec());
        assert_eq!(sign.smallest(sram, &script, number), expected);
    }
    play_case(&sign, &sram, &script);
}

fn play_case(sign: &Sign, sram: &[u32], script: &[u8]) {
    let [one, two] = &sign.banks;
    let length = play_length(sign.geometry, sign.device, one, two, sram, script);
    assert_eq!(sign.play_length(sram, script), length);
    let (method, mut buffer) = (|sign: &mut Sign| sign.play(sram, script), vec![0; BUFFER]);
    compare(sign, method, |geometry, device, one, two| {
        let played = play(geometry, device, one, two, sram, script, &mut buffer)?;
        Ok((buffer[..played.bytes].to_vec(), played.device))
    });
}

/// Makes the call of a case by its method; false where no method makes it.
fn check(case: &Case) -> bool {
    let line = case.inputs();
    let mut inputs = Inputs::new(&line);
    let call = match inputs.word().unwrap_or("") {
        "store" => store_case,
        "register_read" => register_read_case,
        "startup" => start_up_case,
        "flash_read" => flash_read_case,
        "lower_bank" => lower_bank_case,
        "page" => page_case,
        "update_start" => update_start_case,
        "step" => step_case,
        "reset" => reset_case,
        "turn" => turn_case,
        "page_sheet" => page_sheet_case,
        "write_script" => write_script_case,
        "smallest" => smallest_case,
        _ => return false,
    };
    call(&mut inputs);
    true
}

#[test]
fn methods_of_a_sign() {
    let seed = seed(50);
    let report = Report::new(format!("methods of a sign, seed {seed}"));
    let base = Cases::new(seed, DEFAULT_WORDS).take(cases(10));
    let requests = Cases::of_requests(seed, DEFAULT_WORDS).take(cases(100));
    let count = base.chain(requests).filter(check).count();
    assert!(count > 0);
    report.finish(format_args!("{count} cases"));
}

/// A whole update by its method leaves what the model's turns leave.
#[test]
fn whole_updates() {
    let mut random = Random::new(seed(51));
    for numbers in [[1, 1, 1], [2, 3, 2], [4, 1, 2]] {
        let geometry = OutsideGeometry::new(numbers).expect("a sign");
        let start = accepted_start(&mut random, &geometry);
        let mut beside = sign::Sign::new(numbers, start);
        let mut updated = Sign {
            geometry: beside.geometry,
            device: beside.device,
            banks: beside.banks.clone(),
        };
        let total = beside.start();
        beside.run(&[], total, false);
        assert_eq!(updated.update(&beside.image), Ok(total));
        assert_eq!(
            (updated.device, &updated.banks),
            (beside.device, &beside.banks)
        );
    }
}
