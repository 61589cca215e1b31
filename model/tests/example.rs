//! What the examples are expected to print is what this model gives.

use model::cases::answer_line;
use model::device::{Device, BFSWAP, NVMCON, PFSWAP};
use model::flash::reset;
use model::geometry::Banks;
use model::list::List;
use model::script::play;
use model::sheet::page_sheet;
use model::store::start_up;
use model::update::{turn, update_start};
use model::write_script::write_script;
use std::fmt::Write;
use std::path::Path;

const NUMBERS: [u32; 3] = [1, 1, 1];
const WORDS: usize = 64;
const SEQUENCE: usize = 28;
/// The place of the step that programs the sequence quad.
const CUT: u32 = 250;

struct Sign {
    device: Device,
    one: Vec<u32>,
    two: Vec<u32>,
    text: String,
}

fn stored(name: &str) -> String {
    let folder = Path::new(env!("CARGO_MANIFEST_DIR")).join("../examples");
    std::fs::read_to_string(folder.join(name)).unwrap()
}

fn filled(first: u32) -> Vec<u32> {
    (0..WORDS as u32).map(|index| first + index).collect()
}

/// "The sign runs the bank that BFSWAP and PFSWAP both put lower"; 0 where they differ.
fn running_bank(device: &Device) -> u32 {
    match device.registers[NVMCON] & (BFSWAP | PFSWAP) {
        0 => 1,
        swaps if swaps == BFSWAP | PFSWAP => 2,
        _ => 0,
    }
}

impl Sign {
    fn banks(&mut self) -> Banks<'_> {
        Banks {
            one: &mut self.one,
            two: &mut self.two,
        }
    }

    fn print(&mut self, stage: &str) {
        let con = self.device.registers[NVMCON];
        let (one, two) = (self.one[SEQUENCE], self.two[SEQUENCE]);
        writeln!(
            self.text,
            "{stage}: NVMCON {con:08X}, sequence words {one:08X} {two:08X}"
        )
        .unwrap();
    }

    /// A reset and a start-up.
    fn restart(&mut self, kind: u32, mask: [u32; 4]) {
        let device = self.device;
        let restart = reset(NUMBERS, device, &mut self.banks(), &[], kind, mask).unwrap();
        self.device = restart.device;
        self.print("reset");
        self.device = start_up(NUMBERS, self.device).unwrap();
        let bank = running_bank(&self.device);
        writeln!(self.text, "start-up: bank {bank} runs").unwrap();
    }

    fn start(&mut self, image: &[u32]) -> u32 {
        let device = self.device;
        let (_, total) = update_start(NUMBERS, &device, &self.banks(), image).unwrap();
        writeln!(self.text, "update start: {total} actions").unwrap();
        total
    }

    /// Turns from place 0 up to a place; the number of events.
    fn run(&mut self, image: &[u32], last: u32) -> u32 {
        let mut events = 0;
        for place in 0..last {
            let device = self.device;
            let after = turn(NUMBERS, device, &mut self.banks(), image, &[], place).unwrap();
            self.device = after.device;
            events += u32::from(after.event);
        }
        self.print("turns");
        events
    }
}

#[test]
fn update_with_a_cut() {
    let mut sign = Sign {
        device: Device::reset_values(),
        one: filled(0x0100_0000),
        two: filled(0),
        text: String::new(),
    };
    sign.one[SEQUENCE] = 0xFFFE_0001;
    sign.two[SEQUENCE] = 0xFFFF_0000;
    let mut image = filled(0x0200_0000);

    sign.restart(0, [0; 4]);
    let device = sign.device;
    let refused = update_start(NUMBERS, &device, &sign.banks(), &image[1..]).unwrap_err();
    writeln!(
        sign.text,
        "update start with a short image: declined by {}",
        refused.number()
    )
    .unwrap();
    sign.start(&image);
    sign.run(&image, CUT);
    sign.restart(1, [0x0000_FFFF, 0, 0, 0]);

    let total = sign.start(&image);
    let events = sign.run(&image, total);
    sign.restart(0, [0; 4]);
    image[SEQUENCE..SEQUENCE + 4].copy_from_slice(&[0xFFFD_0002, !0, !0, !0]);
    assert_eq!(sign.two, image);
    writeln!(sign.text, "bank 2 is the image, after {events} events").unwrap();

    assert_eq!(sign.text, stored("update.out"));
}

/// The device after power-on, and a quad program that runs.
const IDLE: &str = "0 0 0 0 0 0 0 0 2147483648 40927 2031616 0 0 0 0 0 0 0 0";
const RUNNING: &str =
    "57346 0 486539392 1 2 3 4 0 2147483648 40927 2031616 0 0 486539392 1 2 3 4 0";

/// The banks of the play program.
const BANKS: &str = "64 4294967295 1 28 4294836225 64 4294967295 0";

/// The page sheet of the play program's sign.
fn sheet(banks: &Banks) -> String {
    let mut buffer = vec![0; 68];
    page_sheet(NUMBERS, &Device::reset_values(), banks, &mut buffer).unwrap();
    String::from_utf8(buffer).unwrap()
}

/// The records of an update of that sign, and the bytes of the last 13.
fn script(banks: &Banks) -> String {
    let (image, mut buffer) = (filled(0x0200_0000), vec![0; 8 * 252]);
    let device = Device::reset_values();
    let records = write_script(NUMBERS, &device, banks, &image, &mut buffer).unwrap();
    let mut text = format!("write_script 0 {records}\n");
    for record in buffer[8 * 239..].chunks(8) {
        let bytes: Vec<String> = record.iter().map(|byte| format!("{byte:02X}")).collect();
        writeln!(text, "{}", bytes.join(" ")).unwrap();
    }
    text
}

/// Which record of a script shows 6, with scratch banks as the banks are.
fn smallest(script: &[u8]) -> String {
    let mut numbers = Vec::new();
    List::from_bytes(script).put(&mut numbers);
    let script: Vec<String> = numbers.iter().map(u32::to_string).collect();
    let script = script.join(" ");
    format!("smallest 1 1 1 {IDLE} {BANKS} 0 0 0 {BANKS} {script} 6 72 0 0")
}

/// The bank that runs after power-on, with BFSWAP alone, and after the start-up that follows.
fn running_banks() -> String {
    let idle = Device::reset_values();
    let mut swapped = idle;
    swapped.registers[NVMCON] |= BFSWAP;
    let started = start_up(NUMBERS, swapped).unwrap();
    let banks = [idle, swapped, started].map(|device| running_bank(&device));
    banks.map(|bank| format!("running_bank {bank}\n")).concat()
}

fn worked_example() -> Vec<u8> {
    let path = concat!(env!("CARGO_MANIFEST_DIR"), "/../crates/play/stdin");
    std::fs::read(path).unwrap()
}

#[test]
fn calls() {
    let stored_address = IDLE.replacen("0 0 0", "0 0 486539392", 1);
    let loaded = RUNNING.replacen("486539392", "486539408", 1);
    let cases = [
        format!("store 1 1 1 {IDLE} 2 0 486539392"),
        format!("register_read 1 1 1 {stored_address} 2"),
        format!("flash_read 1 1 1 {IDLE} {BANKS} 0 0 0 532676720"),
        format!("lower_bank 1 1 1 {IDLE} {BANKS}"),
        String::from("page 1 1 1 64 4294967295 0 1"),
        format!("store 1 1 1 {RUNNING} 2 0 486539408"),
        format!("step 1 1 1 {loaded} {BANKS} 0 0 0"),
        format!("flash_read 1 1 1 {RUNNING} {BANKS} 0 0 0 486539400"),
        String::from("plan 200 60 2 1500 240 9960 360"),
        String::from("compare_reason 4294836225 4294967295"),
        String::from("lanes_out 8 0 8 0 1 1 2 2 3 3 4 4 5 5 6 6 7 7 8 8 0 0"),
        String::from("reach 1 1 1 64 0 0 64 0 1 32 1"),
        String::from("reach 1 1 1 64 0 0 64 0 2 28 1 32 1"),
        String::from("reach 1 1 1 64 0 0 64 0 1 28 1"),
        smallest(&worked_example()),
        format!("reset 1 1 1 {IDLE} {BANKS} 0 0 0 3 0 0 0 0"),
    ];
    let mut text = String::new();
    for case in &cases {
        let name = case.split(' ').next().unwrap();
        writeln!(text, "{name} {}", answer_line(case)).unwrap();
    }
    text += "decline_text there is no such kind of reset\n";
    text += &running_banks();
    let (mut one, mut two) = (vec![!0; WORDS], vec![!0; WORDS]);
    one[SEQUENCE] = 0xFFFE_0001;
    let banks = Banks {
        one: &mut one,
        two: &mut two,
    };
    text += &sheet(&banks);
    text += &script(&banks);
    text += &play(&worked_example());
    assert_eq!(text, stored("calls.out"));
}
