//! What directed cases are made of: devices, banks, SRAM, and one function for each call.

use crate::cases::{Call, Case};
use crate::device::*;
use crate::generate::plans::put_plan;
use crate::geometry::{Geometry, Kind, Side, ALL_ONES, MOST_PROGRAM_PAGES};
use crate::list::List;
use crate::plan::Window;
use crate::sequence::word_of;
use crate::store::SET;
use crate::tries::Move;

/// Q=B=P=1.
pub const SMALL: Geometry = Geometry {
    row_quads: 1,
    boot_pages: 1,
    program_pages: 1,
};

/// Pages that are not all the first or last of their window.
pub const SEVERAL: Geometry = Geometry {
    row_quads: 2,
    boot_pages: 2,
    program_pages: 3,
};

/// The most pages, of the shortest rows.
pub const MANY_PAGES: Geometry = Geometry {
    row_quads: 1,
    boot_pages: 5,
    program_pages: MOST_PROGRAM_PAGES,
};

/// The largest banks.
pub const LARGEST: Geometry = Geometry {
    row_quads: 128,
    boot_pages: 5,
    program_pages: MOST_PROGRAM_PAGES,
};

/// Decline 1: Q, B and P just outside.
pub const REFUSED: [Geometry; 9] = [
    geometry(0, 1, 1),
    geometry(3, 1, 1),
    geometry(6, 1, 1),
    geometry(129, 1, 1),
    geometry(256, 1, 1),
    geometry(1, 0, 1),
    geometry(1, 6, 1),
    geometry(1, 1, 0),
    geometry(1, 1, 129),
];

/// The four windows.
pub const WINDOWS: [(Kind, Side); 4] = [
    (Kind::Boot, Side::Lower),
    (Kind::Boot, Side::Upper),
    (Kind::Program, Side::Lower),
    (Kind::Program, Side::Upper),
];

/// Both swap bits in their four settings.
pub const MAPPINGS: [u32; 4] = [0, BFSWAP, PFSWAP, BFSWAP | PFSWAP];

/// The words of NVMDATA0 to 3 in directed cases.
pub const DATA: [u32; 4] = [0x1234, 0x5678, 0x9ABC, 0];

/// NVMBWP with no boot page protected, both locks open.
pub const UNPROTECTED: u32 = LBWPULOCK | BWP_ALWAYS | UBWPULOCK;

/// Both banks.
pub type Pair = [Vec<u32>; 2];

pub const fn geometry(row_quads: u32, boot_pages: u32, program_pages: u32) -> Geometry {
    Geometry {
        row_quads,
        boot_pages,
        program_pages,
    }
}

pub fn start(geometry: &Geometry, window: (Kind, Side)) -> u32 {
    geometry.window_start(window.0, window.1)
}

/// The first address past a window.
pub fn end(geometry: &Geometry, window: (Kind, Side)) -> u32 {
    start(geometry, window) + geometry.window_bytes(window.0)
}

/// The numbers in ascending order, each once.
pub fn each_once(numbers: &[u32]) -> Vec<u32> {
    let mut numbers = numbers.to_vec();
    numbers.sort_unstable();
    numbers.dedup();
    numbers
}

/// WR = 0: reset values, and words in the data registers.
pub fn idle() -> Device {
    let mut device = Device::reset_values();
    device.registers[NVMDATA0..NVMDATA0 + 4].copy_from_slice(&DATA);
    device
}

/// WR = 0, but a store of WR launches.
pub fn ready(nvmop: u32, address: u32) -> Device {
    let mut device = idle();
    device.registers[NVMCON] = WREN | nvmop;
    device.registers[NVMADDR] = address;
    device.key_step = 3;
    device
}

/// WR = 1 before a step; no boot page is protected.
pub fn running(nvmop: u32, address: u32, step: u32) -> Device {
    let mut device = ready(nvmop, address);
    device.registers[NVMBWP] = UNPROTECTED;
    device.set_con(WR | WRERR);
    device.key_step = 0;
    device.step_number = step;
    device
}

/// The device with other bits of NVMCON set.
pub fn with_con(device: Device, bits: u32) -> Device {
    with_register(device, NVMCON, device.registers[NVMCON] | bits)
}

pub fn with_register(device: Device, register: usize, value: u32) -> Device {
    let mut device = device;
    device.registers[register] = value;
    device
}

pub fn with_pwp(device: Device, pwp: u32) -> Device {
    with_register(device, NVMPWP, PWPULOCK | pwp)
}

pub fn with_key(device: Device, key_step: u32) -> Device {
    Device { key_step, ..device }
}

pub fn with_step(device: Device, step_number: u32) -> Device {
    Device {
        step_number,
        ..device
    }
}

pub fn with_launched(device: Device, launched: Operands) -> Device {
    Device { launched, ..device }
}

/// Banks of one word each, but for valid sequence words; bank 1 wins the comparison.
pub fn filled(geometry: &Geometry, fill: u32) -> Pair {
    let mut banks = [1, 2].map(|_| vec![fill; geometry.bank_words() as usize]);
    banks[0][geometry.sequence_index()] = word_of(2);
    banks[1][geometry.sequence_index()] = word_of(1);
    banks
}

/// Blank banks, but for the sequence words.
pub fn blank(geometry: &Geometry) -> Pair {
    filled(geometry, ALL_ONES)
}

/// Banks whose first and last words of each page name their bank and index.
pub fn named(geometry: &Geometry) -> Pair {
    [1, 2].map(|bank| {
        let page = geometry.page_words();
        let mut words = vec![0x1111_1111 * bank; geometry.bank_words() as usize];
        for first in (0..geometry.bank_words()).step_by(page as usize) {
            for index in [first, first + 1, first + page - 1] {
                words[index as usize] = 100_000 * bank + index;
            }
        }
        words
    })
}

pub fn case(call: Call, geometry: &Geometry, device: Device) -> Case {
    let mut case = Case::new(call);
    case.geometry = geometry.numbers();
    case.device = as_launched(device);
    case
}

/// Where an operation runs and nothing else is said to have been launched, it is what the registers hold.
pub fn as_launched(device: Device) -> Device {
    if !device.running() || device.launched != Operands::NONE {
        return device;
    }
    with_launched(device, device.loaded())
}

pub fn lists(case: &mut Case, banks: &Pair) {
    case.lists = banks.iter().map(|bank| List::from_words(bank)).collect();
}

pub fn possible_case(geometry: &Geometry, device: Device) -> Case {
    case(Call::Possible, geometry, device)
}

pub fn protected_case(
    geometry: &Geometry,
    device: Device,
    window: (Kind, Side),
    page: u32,
) -> Case {
    let mut case = case(Call::Protected, geometry, device);
    let kind = u32::from(window.0 == Kind::Program);
    let side = u32::from(window.1 == Side::Upper);
    case.numbers = vec![kind, side, page];
    case
}

pub fn store(geometry: &Geometry, device: Device, register: usize, form: u32, value: u32) -> Case {
    let mut case = case(Call::Store, geometry, device);
    case.numbers = vec![register as u32, form, value];
    case
}

/// NVMCON set 0x8000.
pub fn launch(geometry: &Geometry, device: Device) -> Case {
    store(geometry, device, NVMCON, SET, WR)
}

pub fn register_read(geometry: &Geometry, device: Device, register: u32) -> Case {
    let mut case = case(Call::RegisterRead, geometry, device);
    case.numbers = vec![register];
    case
}

pub fn start_up(geometry: &Geometry, device: Device) -> Case {
    case(Call::StartUp, geometry, device)
}

/// Without SRAM.
pub fn flash_read(geometry: &Geometry, device: Device, banks: &Pair, address: u32) -> Case {
    flash_read_with(geometry, device, banks, &[], address)
}

pub fn flash_read_with(
    geometry: &Geometry,
    device: Device,
    banks: &Pair,
    sram: &[u32],
    address: u32,
) -> Case {
    let mut case = step(geometry, device, banks, sram);
    case.call = Call::FlashRead;
    case.numbers = vec![address];
    case
}

pub fn lower_bank(geometry: &Geometry, device: Device, banks: &Pair) -> Case {
    let mut case = case(Call::LowerBank, geometry, device);
    lists(&mut case, banks);
    case
}

pub fn page(geometry: &Geometry, bank: &[u32], number: u32) -> Case {
    let mut case = case(Call::Page, geometry, Device::reset_values());
    case.lists = vec![List::from_words(bank)];
    case.numbers = vec![number];
    case
}

pub fn step(geometry: &Geometry, device: Device, banks: &Pair, sram: &[u32]) -> Case {
    let mut case = case(Call::Step, geometry, device);
    lists(&mut case, banks);
    case.lists.push(List::from_words(sram));
    case
}

pub fn reset(
    geometry: &Geometry,
    device: Device,
    banks: &Pair,
    sram: &[u32],
    kind: u32,
    mask: [u32; 4],
) -> Case {
    let mut case = step(geometry, device, banks, sram);
    case.call = Call::Reset;
    case.numbers = vec![kind];
    case.numbers.extend(mask);
    case
}

pub fn update_start(geometry: &Geometry, device: Device, banks: &Pair, image: &[u32]) -> Case {
    let mut case = case(Call::UpdateStart, geometry, device);
    lists(&mut case, banks);
    case.lists.push(List::from_words(image));
    case
}

pub fn turn(
    geometry: &Geometry,
    device: Device,
    banks: &Pair,
    image: &[u32],
    sram: &[u32],
    place: u32,
) -> Case {
    let mut case = update_start(geometry, device, banks, image);
    case.call = Call::Turn;
    case.lists.push(List::from_words(sram));
    case.numbers = vec![place];
    case
}

/// Windows are pairs of start and length.
pub fn plan(present: u32, duration: u32, windows: &[(u32, u32)]) -> Case {
    let windows: Vec<Window> = windows
        .iter()
        .map(|(start, length)| Window {
            start: *start,
            length: *length,
        })
        .collect();
    let mut case = Case::new(Call::Plan);
    put_plan(&mut case, present, duration, &windows);
    case
}

pub fn page_sheet(geometry: &Geometry, device: Device, banks: &Pair, buffer: &[u8]) -> Case {
    let mut case = case(Call::PageSheet, geometry, device);
    lists(&mut case, banks);
    case.lists.push(List::from_bytes(buffer));
    case
}

pub fn write_script(
    geometry: &Geometry,
    device: Device,
    banks: &Pair,
    image: &[u32],
    buffer: &[u8],
) -> Case {
    let mut case = update_start(geometry, device, banks, image);
    case.call = Call::WriteScript;
    case.lists.push(List::from_bytes(buffer));
    case
}

pub fn reach(geometry: &Geometry, images: &Pair) -> Case {
    let mut case = case(Call::Reach, geometry, Device::reset_values());
    lists(&mut case, images);
    case
}

pub fn run(
    geometry: &Geometry,
    device: Device,
    banks: &Pair,
    image: &[u32],
    moves: &[Move],
) -> Case {
    let mut case = update_start(geometry, device, banks, image);
    case.call = Call::Run;
    case.numbers = Move::list(moves);
    case
}

/// Both ways, from the same source to the same target.
pub fn lanes(source: &[u8], target: &[u8]) -> [Case; 2] {
    [Call::LanesOut, Call::LanesBack].map(|call| {
        let mut case = Case::new(call);
        case.lists = vec![List::from_bytes(source), List::from_bytes(target)];
        case
    })
}

/// The lists that are as long as a bank: all but the SRAM and a buffer.
pub fn bank_lists(case: &mut Case) -> &mut [List] {
    let count = match case.call {
        Call::FlashRead
        | Call::Step
        | Call::Reset
        | Call::Turn
        | Call::PageSheet
        | Call::WriteScript => case.lists.len() - 1,
        _ => case.lists.len(),
    };
    &mut case.lists[..count]
}
