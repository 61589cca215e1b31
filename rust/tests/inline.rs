//! The functions of include/yohrundel.h that no archive has give what the crate gives.

use std::path::Path;
use std::process::Command;

use yohrundel::nvmcon::{BFSWAP, PFSWAP};
use yohrundel::{Bank, Decline, Device};

/// What tests/inline.c prints, compiled with the header alone.
fn printed() -> String {
    let folder = Path::new(env!("CARGO_MANIFEST_DIR"));
    let program = Path::new(env!("CARGO_TARGET_TMPDIR")).join("inline");
    let mut compiler = Command::new("cc");
    compiler.args(["-std=c99", "-Wall", "-Wextra", "-Wpedantic", "-Werror"]);
    compiler.arg("-I").arg(folder.join("../include"));
    compiler.arg(folder.join("tests/inline.c"));
    let compiled = compiler.arg("-o").arg(&program).status();
    assert!(compiled.expect("a compiler of C").success());
    let output = Command::new(program).output().expect("its program");
    String::from_utf8(output.stdout).expect("text")
}

fn sentence(number: u32) -> &'static str {
    let mut declines = Decline::ALL.iter();
    match declines.find(|decline| decline.number() == number) {
        Some(decline) => decline.sentence(),
        None if number == 0 => "not declined",
        None => "no such decline",
    }
}

fn running_bank(nvmcon: u32) -> u32 {
    let device = Device {
        nvmcon,
        ..Device::power_on()
    };
    device.running_bank().map_or(0, Bank::number)
}

#[test]
fn sentences_and_running_banks() {
    let sentences = (0..100).chain([u32::MAX]).map(sentence).map(String::from);
    let swaps = [0, BFSWAP, PFSWAP, BFSWAP | PFSWAP];
    let banks = swaps.map(running_bank).map(|bank| bank.to_string());
    let expected: Vec<String> = sentences.chain(banks).collect();
    assert_eq!(printed().lines().collect::<Vec<&str>>(), expected);
}
