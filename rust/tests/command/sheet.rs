//! `yohrundel sheet`.

use model::device::{Device, BWP_ALWAYS, MASKS, NVMBWP, NVMCON, NVMPWP, PWP};
use model::flash::reset;
use model::geometry::{Banks, Geometry};
use model::random::Random;
use model::sequence::word_of;
use model::sheet::{page_sheet, sheet_bytes};
use model::store::start_up;

use crate::run::{bytes, file, run, Ran};

const SIGNS: [[u32; 3]; 6] = [
    [1, 1, 1],
    [1, 5, 64],
    [1, 5, 128],
    [2, 3, 7],
    [16, 2, 12],
    [128, 1, 3],
];

/// A bank with blank quads and blank pages in it, and the sequence number in place.
fn random_bank(random: &mut Random, geometry: &Geometry, low: u16) -> Vec<u32> {
    let mut bank = vec![!0; geometry.bank_words() as usize];
    for page in bank.chunks_mut(geometry.page_words() as usize) {
        let blanks = random.below(4);
        for quad in page.chunks_mut(4) {
            if random.below(3) >= blanks {
                quad[random.below(4) as usize] = random.word();
            }
        }
    }
    bank[geometry.sequence_index()] = word_of(low);
    bank
}

/// Registers to set, with their options.
fn random_registers(random: &mut Random, geometry: &Geometry) -> Vec<(usize, &'static str, u32)> {
    let reach = random.below(3 * geometry.program_pages) * geometry.page_bytes();
    let swaps = random.word() & 0xC0;
    let boot = random.word() & MASKS[NVMBWP] | BWP_ALWAYS;
    let program = (reach + random.below(2)) & PWP;
    let mut registers = vec![
        (NVMCON, "--nvmcon", swaps),
        (NVMPWP, "--nvmpwp", program),
        (NVMBWP, "--nvmbwp", boot),
    ];
    registers.retain(|_| random.one_in(2));
    registers
}

/// What the model prints for banks and registers that are set.
fn expected(
    numbers: [u32; 3],
    [one, two]: &mut [Vec<u32>; 2],
    registers: &[(usize, &str, u32)],
) -> String {
    let geometry = Geometry::new(numbers).expect("a sign");
    let mut banks = Banks { one, two };
    let device = Device::reset_values();
    let restart = reset(numbers, device, &mut banks, &[], 0, [0; 4]).expect("a reset");
    let mut device = start_up(numbers, restart.device).expect("a start-up");
    for (register, _, value) in registers {
        device.registers[*register] = *value;
    }
    let mut sheet = vec![0; sheet_bytes(&geometry) as usize];
    page_sheet(numbers, &device, &banks, &mut sheet).expect("a sheet");
    String::from_utf8(sheet).expect("text")
}

/// The sheet of two files, with options.
fn sheet(numbers: [u32; 3], files: [&str; 2], registers: &[(usize, &str, u32)]) -> Ran {
    let mut arguments = vec![String::from("sheet")];
    arguments.extend(numbers.map(|number| number.to_string()));
    arguments.extend(files.map(String::from));
    for (_, option, value) in registers {
        arguments.extend([option.to_string(), format!("{value:X}")]);
    }
    run(&arguments)
}

/// Two files with the words of two banks.
fn files(name: &str, banks: &[Vec<u32>; 2]) -> [String; 2] {
    [0, 1].map(|bank| {
        let path = file(&format!("{name}-{bank}"), &bytes(&banks[bank]));
        path.to_str().expect("a name in UTF-8").into()
    })
}

#[test]
fn sheets_of_random_signs() {
    let mut random = Random::new(7);
    for number in 0..60 {
        let random = &mut random;
        let numbers = SIGNS[number % SIGNS.len()];
        let geometry = Geometry::new(numbers).expect("a sign");
        let lows = [random.below(3) as u16, random.below(3) as u16];
        let mut banks = lows.map(|low| random_bank(random, &geometry, low));
        let registers = random_registers(random, &geometry);
        let [one, two] = &files(&format!("sheet-{number}"), &banks);
        let printed = sheet(numbers, [one, two], &registers).printed();
        assert_eq!(printed, expected(numbers, &mut banks, &registers));
    }
}

/// The bank with the higher sequence number is on the lower side.
#[test]
fn sides_by_the_sequence_numbers() {
    for (two, expected) in [
        (
            word_of(0),
            "1 B   0 L 1    1\n1 P   0 L 0    0\n2 B   0 U 1    1\n2 P   0 U 0    0\n",
        ),
        (
            word_of(2),
            "1 B   0 U 1    1\n1 P   0 U 0    0\n2 B   0 L 1    1\n2 P   0 L 0    0\n",
        ),
    ] {
        let mut banks = [vec![!0; 64], vec![!0; 64]];
        banks[0][28] = word_of(1);
        banks[1][28] = two;
        let [one, two] = &files(&format!("sides-{}", two & 0xFFFF), &banks);
        assert_eq!(sheet([1, 1, 1], [one, two], &[]).printed(), expected);
    }
}

/// Registers by which no device is possible, with the clause of the paper's sentence that they meet first. No operation was launched, so
/// that the launched NVMADDR is 0.
const IMPOSSIBLE: &[(&[(usize, &str, u32)], &str)] = &[
    (
        &[(NVMCON, "--nvmcon", 0x1_0000), (NVMBWP, "--nvmbwp", 0)],
        "NVMCON is 0x00010000, with a bit outside its mask 0x0000F0CF",
    ),
    (
        &[(NVMPWP, "--nvmpwp", 1 << 30)],
        "NVMPWP is 0x40000000, with a bit outside its mask 0x80FFFFFF",
    ),
    (
        &[(NVMBWP, "--nvmbwp", 0x20)],
        "NVMBWP is 0x00000020, with a bit outside its mask 0x00009FDF",
    ),
    (
        &[(NVMCON, "--nvmcon", 0x8000), (NVMBWP, "--nvmbwp", 0)],
        "NVMBWP is 0x00000000, with bit 6 clear",
    ),
    (
        &[(NVMCON, "--nvmcon", 0x8000)],
        "NVMCON is 0x00008000: WR = 1 and WRERR = 0",
    ),
    (
        &[(NVMCON, "--nvmcon", 0xB002)],
        "NVMCON is 0x0000B002: WR = 1 and LVDERR = 1",
    ),
    (
        &[(NVMCON, "--nvmcon", 0xA008)],
        "NVMCON is 0x0000A008: WR = 1, but no steps begin for NVMOP 8",
    ),
    (
        &[(NVMCON, "--nvmcon", 0xA002)],
        "the launched NVMADDR is 0x00000000, outside the four windows",
    ),
    (
        &[(NVMCON, "--nvmcon", 0xA005), (NVMPWP, "--nvmpwp", 1)],
        "NVMPWP is 0x00000001 and protects a page that NVMOP 5 erases",
    ),
];

#[test]
fn impossible_registers() {
    let banks = [vec![!0; 64], vec![!0; 64]];
    let [one, two] = &files("impossible", &banks);
    for (registers, cause) in IMPOSSIBLE {
        let ran = sheet([1, 1, 1], [one, two], registers);
        let reason = "sheet: declined by 3: the device record is impossible";
        assert_eq!(ran.reason(1), format!("{reason}: {cause}"));
    }
}

#[test]
fn bank_of_a_wrong_length() {
    let banks = [vec![!0; 64], vec![!0; 63]];
    let [one, two] = &files("short", &banks);
    let reason = "2: a bank, the image, the SRAM or the result has a wrong length";
    let cause = format!("{two:?} has 252 bytes, not the 256 of a bank");
    let ran = sheet([1, 1, 1], [one, two], &[]);
    assert_eq!(
        ran.reason(1),
        format!("sheet: declined by {reason}: {cause}")
    );
}
