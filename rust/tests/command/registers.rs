//! `--register`: registers that are set after the power-on reset and start-up, beside the outside model.

use model::device::{
    Operands, BFSWAP, LVDERR, NVMADDR, NVMBWP, NVMCON, NVMCON2, NVMPWP, PFSWAP, WR, WREN, WRERR,
};
use model::random::Random;
use model::sequence::word_of;

use crate::arguments::wrong;
use crate::outside::Sign;
use crate::rows::expected as row;
use crate::run::{bytes, run, Ran};
use crate::scripts::{named, random_words, written};
use crate::texts::REGISTERS;
use crate::updates::{cut, update};

/// A register by its number, and its value.
type Setting = (usize, u32);

fn set(sign: &mut Sign, settings: &[Setting]) {
    for (number, value) in settings {
        sign.device.registers[*number] = *value;
    }
    sign.device.launched = match sign.device.running() {
        true => sign.device.loaded(),
        false => Operands::NONE,
    };
}

/// The options that set the registers.
fn options(settings: &[Setting]) -> String {
    let option =
        |(number, value): &Setting| format!(" --register {}={value:X}", REGISTERS[*number]);
    settings.iter().map(option).collect()
}

/// A few registers with values at which an update is accepted, or declined in any way.
fn random_settings(random: &mut Random, sign: &Sign) -> Vec<Setting> {
    let region = sign.geometry.region_bytes();
    let swaps = random.pick(&[0, BFSWAP, PFSWAP, BFSWAP | PFSWAP]);
    let operation = WR | WREN | WRERR | random.pick(&[0, 1, 2, 4, 5, 9]);
    let mut settings = vec![
        (
            NVMCON,
            random.pick(&[swaps, WREN, WRERR, LVDERR, 1 << 8, WR, operation, operation]),
        ),
        (
            NVMADDR,
            random.pick(&[0x1FC2_0000, 0x1D00_0000, 0x1D00_0000 + region, 0, !0]),
        ),
        (3 + random.below(4) as usize, random.word()),
        (7, random.word()),
        (
            NVMPWP,
            random.pick(&[0, 1, region - 1, region, region + 1, 1 << 24, 0x8000_0001]),
        ),
        (
            NVMBWP,
            random.pick(&[0x9FDF, 0x9F5F, 0x40, 0xC0, 0x9F9F, 0xFFFF]),
        ),
        (
            NVMCON2,
            random.pick(&[0, 0x1F_0000, 0xC0, 0x20, 0xF01F_B3C0]),
        ),
    ];
    settings.retain(|_| random.one_in(3));
    settings
}

/// The answer of the start is the model's, whatever the registers are.
#[test]
fn starts_with_random_registers() {
    let mut random = Random::new(81);
    let mut seen = [0; 13];
    for number in 0..300 {
        let numbers = [[1, 1, 1], [2, 2, 3], [1, 5, 20]][number % 3];
        let mut sign = Sign::fresh(numbers, None);
        let settings = random_settings(&mut random, &sign);
        set(&mut sign, &settings);
        let [q, b, p] = numbers;
        let text = format!("start {q} {b} {p}{}", options(&settings));
        let ran = line(text.clone());
        let decline = match sign.start() {
            Ok(total) => {
                let expected = format!("The update is accepted. It has {total} actions.\n");
                assert_eq!(ran.printed(), expected, "{text}");
                0
            }
            Err(refusal) => {
                let front = format!("start: declined by {}: ", refusal.number());
                let reason = ran.reason(1);
                assert!(reason.starts_with(&front), "{text}: {reason}");
                refusal.number()
            }
        };
        seen[decline as usize] += 1;
    }
    let often: Vec<usize> = (0..13).filter(|decline| seen[*decline] > 5).collect();
    assert_eq!(often, [0, 3, 5, 10, 12], "{seen:?}");
}

/// A sign with protected pages, set errors and other values than after power-on, whose bank 2 runs; the file of its image, and the options
/// that name it.
fn set_sign(name: &str) -> (Sign, String, String) {
    let mut random = Random::new(82);
    let [mut one, mut two, image] = [0; 3].map(|_| random_words(&mut random, 4 * 32));
    (one[60], two[60]) = (word_of(6), word_of(7));
    let mut sign = Sign::started([1, 2, 2], [one.clone(), two.clone()], Some(image.clone()));
    let settings = [
        (NVMCON, BFSWAP | PFSWAP | LVDERR | WRERR),
        (NVMADDR, 0x1FC2_0000),
        (NVMPWP, 0x8000_0080),
        (NVMBWP, 0x80C1),
        (NVMCON2, 0x5000_0000),
    ];
    set(&mut sign, &settings);
    let [one, two, image] = [("one", one), ("two", two), ("image", image)]
        .map(|(file, words)| named(&format!("set-{name}-{file}"), &bytes(&words)));
    let options = format!("--bank1 {one} --bank2 {two}{}", options(&settings));
    (sign, image, options)
}

fn line(text: String) -> Ran {
    run(&text.split(' ').collect::<Vec<_>>())
}

#[test]
fn cuts_with_registers() {
    let (sign, image, options) = set_sign("cut");
    for place in [0, 1, 19, 30, 100, 490, 491, 492] {
        let mut sign = sign.clone();
        sign.turns(0, place);
        let (expected, _) = cut(sign, &format!("At place {place}"), 1, [0xFF00; 4]);
        let ran = line(format!(
            "cut 1 2 2 {place} 1 FF00 --image {image} {options}"
        ));
        assert_eq!(ran.printed(), expected, "{place}");
    }
}

#[test]
fn updates_rows_and_scripts_with_registers() {
    let (mut sign, image, options) = set_sign("update");
    let ran = line(format!("script 1 2 2 {image} {options}"));
    assert!(written(ran) == sign.script().expect("it is accepted"));
    let ran = line(format!("row 2 1 1 2 2 {image} {options}"));
    assert_eq!(ran.printed(), row(sign.clone(), [2, 1], None, 72));
    let expected = update(&mut sign);
    // UBWP0 is set, and PWP reaches to the first byte of program page 1.
    let before = "bank 1  oo    oo\n        ^\nbank 2* oo    oo\n              ^^\n";
    assert!(expected.contains(before), "{expected}");
    let ran = line(format!("update 1 2 2 {image} {options}"));
    assert_eq!(ran.printed(), expected);
}

/// `yohrundel sheet` takes the option beside its own ones.
#[test]
fn sheet_with_registers() {
    let blank = named("set-blank", &[0xFF; 256]);
    let sheet = |options: &str| line(format!("sheet 1 1 1 {blank} {blank} {options}"));
    let own = sheet("--nvmpwp 80000001 --nvmbwp 9FC0").printed();
    let named = sheet("--register NVMPWP=80000001 --register=NVMBWP=0x9fc0").printed();
    assert_eq!(named, own);
    assert_eq!(
        sheet("--nvmpwp 80000001 --register NVMBWP=9FC0").printed(),
        own
    );
    let expected = "1 B   0 L 1    0\n1 P   0 L 1    0\n2 B   0 U 0    0\n2 P   0 U 0    0\n";
    assert_eq!(own, expected);
    let reason = "sheet: NVMBWP is set twice; try yohrundel sheet --help";
    assert_eq!(
        sheet("--nvmbwp 9FC0 --register NVMBWP=9FC0").reason(2),
        reason
    );
}

#[test]
fn registers_that_are_not_understood() {
    for value in [
        "",
        "NVMCON",
        "NVMCON=",
        "NVMCON=x",
        "NVMCON=100000000",
        "nvmcon=0",
        "NVMKEY=0",
        "NVMDATA4=0",
        "NVMDATA=0",
        "=0",
        "NVMCON=0=0",
        "NVMCON:0",
    ] {
        let words = "NAME=HEX with the name of a register and a hexadecimal word";
        let reason = format!("the value of --register is {value:?}, not {words}");
        for command in [
            "start 1 1 1",
            "update 1 1 1",
            "cut 1 1 1 0 0",
            "row 1 1 1 1 1",
            "script 1 1 1",
        ] {
            wrong(&format!("{command} --register={value}"), &reason);
        }
    }
    let twice = "start 1 1 1 --register NVMDATA2=0 --register NVMDATA3=0 --register NVMDATA2=0";
    wrong(twice, "NVMDATA2 is set twice");
    wrong(
        "script --list - --register NVMCON=0",
        "--list and --register exclude each other",
    );
    wrong(
        "script --make - --register NVMCON=0",
        "--make and --register exclude each other",
    );
    wrong(
        "play - --register NVMCON=0",
        "there is no option \"--register\"",
    );
}
