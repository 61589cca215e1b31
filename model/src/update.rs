//! The update: its list of actions by place, start and turn.

use crate::device::*;
use crate::flash::{apply_step, check_running, reset_choice};
use crate::geometry::{check_sram, Banks, Geometry, Kind, Side};
use crate::sequence::{halves_disjoint, low_half, new_quad, valid};
use crate::store::{apply_store, check_idle, check_store, CLEAR, KEYS, PLAIN, SET};
use crate::{Answer, Refusal};

#[derive(Clone, Copy, Debug, PartialEq, Eq)]
pub enum Action {
    Store {
        register: u32,
        form: u32,
        value: u32,
    },
    Step,
}

fn store(register: usize, form: u32, value: u32) -> Action {
    Action::Store {
        register: register as u32,
        form,
        value,
    }
}

fn key(number: u32) -> Action {
    store(NVMKEY, PLAIN, KEYS[number as usize])
}

/// Actions of part 1.
const OPENING: u32 = 12;

/// Actions for each quad of part 3.
const QUAD_ACTIONS: u32 = 13;

/// "Total 12 + 8×N + 112×N×Q".
pub fn total(geometry: &Geometry) -> u32 {
    let pages = geometry.pages();
    OPENING + 8 * pages + 112 * pages * geometry.row_quads
}

/// Actions for one page of part 2.
pub fn erase_actions(geometry: &Geometry) -> u32 {
    8 + geometry.page_quads()
}

/// The place of the first action of part 3.
pub fn program_place(geometry: &Geometry) -> u32 {
    OPENING + geometry.pages() * erase_actions(geometry)
}

/// The action at a place below the total; `low` is t.
pub fn action(geometry: &Geometry, low: u16, image: &[u32], place: u32) -> Action {
    if place < OPENING {
        return opening_action(place);
    }
    let erasing = place - OPENING;
    let each = erase_actions(geometry);
    if erasing < geometry.pages() * each {
        let address = erase_address(geometry, erasing / each);
        return erase_action(geometry, address, erasing % each);
    }
    let programming = place - program_place(geometry);
    let number = programming / QUAD_ACTIONS;
    let (address, quad) = program_quad(geometry, low, image, number);
    program_action(address, quad, programming % QUAD_ACTIONS)
}

/// Part 1.
fn opening_action(place: u32) -> Action {
    match place {
        0 => store(NVMCON, CLEAR, 0x4000),
        1 => store(NVMCON, PLAIN, 0),
        2 => store(NVMCON, SET, 0x4000),
        3..=5 => key(place - 3),
        6 => store(NVMCON, SET, 0x8000),
        7 => store(NVMCON, CLEAR, 0x4000),
        8..=10 => key(place - 8),
        _ => store(NVMBWP, CLEAR, 0x1F),
    }
}

/// "last boot page, other boot pages ascending, program pages ascending".
fn erase_address(geometry: &Geometry, number: u32) -> u32 {
    let bytes = geometry.page_bytes();
    let boot = geometry.window_start(Kind::Boot, Side::Upper);
    let program = geometry.window_start(Kind::Program, Side::Upper);
    if number == 0 {
        boot + (geometry.boot_pages - 1) * bytes
    } else if number < geometry.boot_pages {
        boot + (number - 1) * bytes
    } else {
        program + (number - geometry.boot_pages) * bytes
    }
}

/// Part 2, one page.
fn erase_action(geometry: &Geometry, address: u32, number: u32) -> Action {
    match number {
        0 => store(NVMADDR, PLAIN, address),
        1 => store(NVMCON, PLAIN, 4),
        2 => store(NVMCON, SET, 0x4000),
        3..=5 => key(number - 3),
        6 => store(NVMCON, SET, 0x8000),
        _ if number < 7 + geometry.page_quads() => Action::Step,
        _ => store(NVMCON, CLEAR, 0x4000),
    }
}

/// Address and data: "program pages, then boot pages ascending, sequence quad last".
fn program_quad(geometry: &Geometry, low: u16, image: &[u32], number: u32) -> (u32, [u32; 4]) {
    let program_quads = geometry.window_quads(Kind::Program);
    let boot_quads = geometry.window_quads(Kind::Boot);
    if number < program_quads {
        let start = geometry.window_start(Kind::Program, Side::Upper);
        let quad = image_quad(image, boot_quads + number);
        return (start + 16 * number, quad);
    }
    let boot = number - program_quads;
    let address = geometry.window_start(Kind::Boot, Side::Upper) + 16 * boot;
    // "its last boot quad is ignored"
    if boot == boot_quads - 1 {
        return (address, new_quad(low));
    }
    (address, image_quad(image, boot))
}

/// The place of the store of one word of the image to its NVMDATA register; none in the quad that "is ignored".
pub fn data_place(geometry: &Geometry, index: u32) -> Option<u32> {
    let program_quads = geometry.window_quads(Kind::Program);
    let boot_quads = geometry.window_quads(Kind::Boot);
    let (quad, word) = (index / 4, index % 4);
    if quad == boot_quads - 1 {
        return None;
    }
    // The program pages stand last in an image and are programmed first.
    let number = if quad < boot_quads {
        program_quads + quad
    } else {
        quad - boot_quads
    };
    Some(program_place(geometry) + number * QUAD_ACTIONS + 1 + word)
}

fn image_quad(image: &[u32], number: u32) -> [u32; 4] {
    let first = 4 * number as usize;
    [
        image[first],
        image[first + 1],
        image[first + 2],
        image[first + 3],
    ]
}

/// Part 3, one quad.
fn program_action(address: u32, quad: [u32; 4], number: u32) -> Action {
    match number {
        0 => store(NVMADDR, PLAIN, address),
        1..=4 => {
            let word = number as usize - 1;
            store(NVMDATA0 + word, PLAIN, quad[word])
        }
        5 => store(NVMCON, PLAIN, 2),
        6 => store(NVMCON, SET, 0x4000),
        7..=9 => key(number - 7),
        10 => store(NVMCON, SET, 0x8000),
        11 => Action::Step,
        _ => store(NVMCON, CLEAR, 0x4000),
    }
}

/// t: "the low half of the lower-alias bank's sequence word".
pub fn lower_half_now(geometry: &Geometry, device: &Device, banks: &Banks) -> u16 {
    let words = banks.words(device.lower_alias_bank());
    low_half(words[geometry.sequence_index()])
}

/// "changes nothing and gives place 0 and the total".
pub fn update_start(
    numbers: [u32; 3],
    device: &Device,
    banks: &Banks,
    image: &[u32],
) -> Answer<(u32, u32)> {
    let geometry = Geometry::new(numbers)?;
    banks.check(&geometry)?;
    geometry.check_bank(image)?;
    check_device(&geometry, device)?;
    check_idle(device)?;
    check_sequences(&geometry, device, banks)?;
    if lower_half_now(&geometry, device, banks) == 65_535 {
        return Err(Refusal::LastSequence);
    }
    let locked = device.registers[NVMBWP] & UBWPULOCK == 0;
    if locked || device.pwp() >= geometry.region_bytes() {
        return Err(Refusal::Protection);
    }
    Ok((0, total(&geometry)))
}

/// Decline 10.
fn check_sequences(geometry: &Geometry, device: &Device, banks: &Banks) -> Answer<()> {
    let lower = device.lower_alias_bank();
    let index = geometry.sequence_index();
    let own = banks.words(lower)[index];
    let other = banks.words(lower.other())[index];
    let swaps_differ = device.con(PFSWAP) != device.con(BFSWAP);
    // "a torn erase could make it valid"
    let doubtful = !valid(other) && halves_disjoint(other);
    if !valid(own) || reset_choice(geometry, banks).bank != lower || swaps_differ || doubtful {
        return Err(Refusal::Sequence);
    }
    Ok(())
}

/// What a turn leaves.
#[derive(Clone, Copy, Debug, PartialEq, Eq)]
pub struct Turn {
    pub done: bool,
    pub device: Device,
    pub place: u32,
    pub event: bool,
}

/// "Each turn does one action and raises the place by 1".
pub fn turn(
    numbers: [u32; 3],
    device: Device,
    banks: &mut Banks,
    image: &[u32],
    sram: &[u32],
    place: u32,
) -> Answer<Turn> {
    let geometry = Geometry::new(numbers)?;
    banks.check(&geometry)?;
    geometry.check_bank(image)?;
    check_sram(sram)?;
    check_device(&geometry, &device)?;
    let total = total(&geometry);
    if place > total {
        return Err(Refusal::Place);
    }
    // "At the total, and only there, it says done and changes nothing"
    if place == total {
        return Ok(Turn {
            done: true,
            device,
            place,
            event: false,
        });
    }
    let (device, event) = act(&geometry, device, banks, image, sram, place)?;
    Ok(Turn {
        done: false,
        device,
        place: place + 1,
        event,
    })
}

/// Does the action of a place below the total, or declines it with 5 or 6.
fn act(
    geometry: &Geometry,
    device: Device,
    banks: &mut Banks,
    image: &[u32],
    sram: &[u32],
    place: u32,
) -> Answer<(Device, bool)> {
    let low = lower_half_now(geometry, &device, banks);
    match action(geometry, low, image, place) {
        Action::Store {
            register,
            form,
            value,
        } => {
            check_store(&device, register)?;
            Ok(apply_store(geometry, device, register, form, value))
        }
        Action::Step => {
            check_running(&device)?;
            Ok(apply_step(geometry, device, banks, sram))
        }
    }
}
