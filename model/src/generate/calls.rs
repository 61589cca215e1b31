//! One case for each call.

use crate::cases::{Call, Case};
use crate::device::*;
use crate::geometry::{Geometry, Kind, Side, ALL_ONES, SRAM_LIMIT};
use crate::list::List;
use crate::random::Random;
use crate::sequence::word_of;
use crate::store::KEYS;
use crate::update::total;

use super::devices;
use super::lanes::lanes_case;
use super::memory;
use super::places::{self, Start};
use super::plans::plan_case;
use super::reaches::images;
use super::schedules::schedule_case;
use super::sheets::page_sheet_case;
use super::smallest::smallest_case;
use super::tries::run_case;
use super::walks::walk_case;
use super::write_scripts::put_script_buffer;
use super::MOST_WORDS;

/// How seldom one input is spoiled: once in this many cases.
const SPOILED: u32 = 14;

pub fn case(random: &mut Random, call: Call, max_words: u32) -> Case {
    let with_banks = call.shape().lists > 0;
    let words = if with_banks { max_words } else { MOST_WORDS };
    let geometry = devices::geometry(random, words);
    let mut case = Case::new(call);
    case.geometry = geometry.numbers();
    case.device = devices::device(random, &geometry);
    fill_case(random, &geometry, &mut case);
    let judged = !matches!(call, Call::Compare | Call::Possible | Call::Protected);
    if judged && random.one_in(SPOILED) {
        case.geometry = devices::refused_numbers(random, &geometry);
    }
    if !call.shape().geometry {
        case.geometry = [0; 3];
    }
    if !call.shape().device {
        case.device = Device::reset_values();
    }
    case
}

fn fill_case(random: &mut Random, geometry: &Geometry, case: &mut Case) {
    match case.call {
        Call::Compare | Call::CompareReason => {
            case.numbers = memory::sequence_pair(random).to_vec();
        }
        Call::Possible => possible_case(random, geometry, case),
        Call::Protected => protected_case(random, geometry, case),
        Call::Store => store_case(random, geometry, case),
        Call::RegisterRead => case.numbers = vec![register(random)],
        Call::FlashRead => flash_read_case(random, geometry, case),
        Call::LowerBank => bank_lists(random, geometry, case),
        Call::Page => page_case(random, geometry, case),
        Call::Step => step_case(random, geometry, case),
        Call::Reset => reset_case(random, geometry, case),
        Call::StartUp => start_up_case(random, geometry, case),
        Call::UpdateStart => update_start_case(random, geometry, case),
        Call::Turn => turn_case(random, geometry, case),
        Call::Plan => plan_case(random, case),
        Call::PageSheet => page_sheet_case(random, geometry, case),
        Call::LanesOut | Call::LanesBack => lanes_case(random, case),
        Call::Walk => walk_case(random, geometry, case),
        Call::WriteScript => {
            update_start_case(random, geometry, case);
            put_script_buffer(random, geometry, case);
        }
        Call::Reach => {
            let images = images(random, geometry);
            put_banks(random, case, images);
        }
        Call::Run => run_case(random, geometry, case),
        Call::Smallest => smallest_case(random, geometry, case),
        Call::Schedule | Call::RowRun => schedule_case(random, geometry, case),
        Call::ValidBySum => case.numbers = vec![memory::sequence_word(random)],
    }
}

fn register(random: &mut Random) -> u32 {
    if random.one_in(SPOILED) {
        return random.pick(&[11, 12, 255, 256, 0xFFFF_FFFF]);
    }
    random.below(11)
}

fn possible_case(random: &mut Random, geometry: &Geometry, case: &mut Case) {
    case.device = match random.below(3) {
        0 => devices::impossible(random, geometry),
        1 => devices::running(random, geometry),
        _ => devices::device(random, geometry),
    };
}

fn protected_case(random: &mut Random, geometry: &Geometry, case: &mut Case) {
    let kind = random.below(2);
    let pages = if kind == 0 {
        geometry.boot_pages
    } else {
        geometry.program_pages
    };
    let page = match random.below(3) {
        0 => 0,
        1 => pages - 1,
        _ => random.below(pages),
    };
    case.device = devices::idle(random, geometry);
    case.numbers = vec![kind, random.below(2), page];
}

fn store_case(random: &mut Random, geometry: &Geometry, case: &mut Case) {
    if case.device.running() && !random.one_in(4) {
        case.device = devices::idle(random, geometry);
    }
    let register = match random.below(3) {
        0 => NVMCON as u32,
        1 => random.pick(&[NVMKEY, NVMPWP, NVMBWP, NVMCON2]) as u32,
        _ => register(random),
    };
    let form = if random.one_in(SPOILED) {
        random.pick(&[4, 5, 0xFFFF_FFFF])
    } else if register as usize == NVMKEY && !random.one_in(8) {
        0
    } else {
        random.below(4)
    };
    if (NVMADDR..=NVMSRCADDR).contains(&(register as usize)) && random.one_in(3) {
        case.device = devices::running(random, geometry);
    }
    if register as usize == NVMCON && random.one_in(2) {
        case.device = devices::launching(random, geometry);
        case.numbers = vec![register, form, random.pick(&[WR, WR | WREN, WR | 0xCF])];
        return;
    }
    case.numbers = vec![register, form, store_value(random, geometry, register)];
}

fn store_value(random: &mut Random, geometry: &Geometry, register: u32) -> u32 {
    match register as usize {
        NVMCON => random.pick(&[0, 4, 0x80, 0x40, 0xC0, WR, WREN, 0xFFFF, ALL_ONES]),
        NVMKEY if !random.one_in(6) => random.pick(&KEYS),
        NVMPWP => random.pick(&[0, PWPULOCK, ALL_ONES]) ^ devices::pwp(random, geometry),
        NVMADDR => devices::address(random, geometry),
        NVMBWP | NVMCON2 if random.one_in(2) => random.word(),
        _ => random.edge_word(),
    }
}

/// Both banks as lists, seldom with a refused length.
pub fn put_banks(random: &mut Random, case: &mut Case, mut banks: [Vec<u32>; 2]) {
    if random.one_in(SPOILED) {
        let bank = random.below(2) as usize;
        memory::refused_length(random, &mut banks[bank]);
    }
    case.lists = banks.iter().map(|words| List::from_words(words)).collect();
}

fn bank_lists(random: &mut Random, geometry: &Geometry, case: &mut Case) {
    let pair = memory::sequence_pair(random);
    let mut banks = memory::banks(random, geometry, pair);
    if possible(geometry, &case.device) {
        memory::prepare_quad(random, geometry, &case.device, &mut banks);
    }
    put_banks(random, case, banks);
}

pub fn put_image(random: &mut Random, case: &mut Case, mut image: Vec<u32>) {
    if random.one_in(2 * SPOILED) {
        memory::refused_length(random, &mut image);
    }
    case.lists.push(List::from_words(&image));
}

fn put_sram(random: &mut Random, case: &mut Case) {
    let sram = memory::sram(random, &case.device);
    put_sram_words(random, case, &sram);
}

pub fn put_sram_words(random: &mut Random, case: &mut Case, words: &[u32]) {
    let mut list = List::from_words(words);
    if random.one_in(2 * SPOILED) {
        list.length = SRAM_LIMIT + random.pick(&[1, 2, 3_616]);
    }
    case.lists.push(list);
}

fn flash_read_case(random: &mut Random, geometry: &Geometry, case: &mut Case) {
    if !case.device.running() && random.one_in(2) {
        case.device = devices::running(random, geometry);
    }
    if possible(geometry, &case.device) {
        devices::near_the_end(random, geometry, &mut case.device);
    }
    let pair = memory::sequence_pair(random);
    let mut banks = memory::banks(random, geometry, pair);
    if possible(geometry, &case.device) {
        memory::prepare_quad(random, geometry, &case.device, &mut banks);
        memory::prepare_row(random, geometry, &case.device, &mut banks);
    }
    put_banks(random, case, banks);
    let sram = memory::row_sram(random, geometry, &case.device);
    put_sram_words(random, case, &sram);
    let mut address = devices::address(random, geometry);
    if !random.one_in(8) {
        address &= !3;
    }
    case.numbers = vec![address];
}

fn page_case(random: &mut Random, geometry: &Geometry, case: &mut Case) {
    let bank = memory::image(random, geometry);
    put_image(random, case, bank);
    let pages = geometry.pages();
    let page = match random.below(6) {
        0 => random.pick(&[pages, pages + 1, 0x8000_0000, 0xFFFF_FFFF]),
        1 => pages - 1,
        2 => geometry.boot_pages - 1,
        _ => random.below(pages),
    };
    case.numbers = vec![page];
}

fn step_case(random: &mut Random, geometry: &Geometry, case: &mut Case) {
    if !case.device.running() && !random.one_in(8) {
        let nvmop = random.between(2, 7);
        case.device = devices::running_operation(random, geometry, nvmop);
    }
    bank_lists(random, geometry, case);
    put_sram(random, case);
}

fn reset_case(random: &mut Random, geometry: &Geometry, case: &mut Case) {
    if !case.device.running() && random.one_in(2) {
        case.device = devices::running(random, geometry);
    }
    if random.one_in(8) {
        sequence_target(random, geometry, case);
    }
    bank_lists(random, geometry, case);
    put_sram(random, case);
    let kind = if random.one_in(SPOILED) {
        random.pick(&[3, 4, 255, 0xFFFF_FFFF])
    } else {
        random.below(3)
    };
    case.numbers = vec![kind];
    case.numbers.extend(random.mask());
}

/// A quad program of the sequence quad, whose tear the comparison sees.
fn sequence_target(random: &mut Random, geometry: &Geometry, case: &mut Case) {
    let mut device = devices::running_operation(random, geometry, 2);
    let start = geometry.window_start(Kind::Boot, Side::Upper);
    device.registers[NVMADDR] = start + geometry.window_bytes(Kind::Boot) - 16;
    device.registers[NVMDATA0] = word_of(random.word() as u16);
    device.registers[NVMBWP] &= !UBWP;
    device.launched = device.loaded();
    devices::load_since(random, geometry, &mut device);
    case.device = device;
}

fn start_up_case(random: &mut Random, geometry: &Geometry, case: &mut Case) {
    if case.device.running() && random.one_in(2) {
        case.device = devices::idle(random, geometry);
    }
}

fn update_start_case(random: &mut Random, geometry: &Geometry, case: &mut Case) {
    let mut start = places::accepted_start(random, geometry);
    if random.one_in(2) {
        spoil_start(random, geometry, &mut start);
    }
    if random.one_in(SPOILED) {
        start.device = devices::device(random, geometry);
    }
    if random.one_in(SPOILED) {
        start.device = devices::impossible(random, geometry);
    }
    case.device = start.device;
    put_banks(random, case, start.banks);
    put_image(random, case, start.image);
}

/// Breaks one condition of an accepted start.
pub fn spoil_start(random: &mut Random, geometry: &Geometry, start: &mut Start) {
    let index = geometry.sequence_index();
    let own = start.device.lower_alias_bank().number() as usize - 1;
    let low = start.banks[own][index] as u16;
    match random.below(9) {
        0 => start.banks[own][index] ^= 1 << random.below(32),
        1 => start.banks[1 - own][index] = word_of(low + 1),
        2 => start.banks[1 - own][index] = word_of(low),
        3 => start.device.registers[NVMCON] ^= random.pick(&[PFSWAP, BFSWAP]),
        4 => start.banks[1 - own][index] = word_of(low) & !(1 << random.below(32)),
        5 => start.banks[1 - own][index] = random.pick(&[0, 1, 0x0001_0000, 0x0001_0001]),
        6 => start.banks[own][index] = 0x0000_FFFF,
        7 => start.device.registers[NVMBWP] &= !UBWPULOCK,
        _ => {
            let region = geometry.region_bytes();
            start.device.registers[NVMPWP] &= !PWP;
            start.device.registers[NVMPWP] |= region + random.pick(&[0, 1, region - 1]);
        }
    }
}

/// Inputs of a turn: free ones, or those that the turns before it left.
fn turn_case(random: &mut Random, geometry: &Geometry, case: &mut Case) {
    if random.one_in(3) {
        free_turn(random, geometry, case);
    } else {
        reached_turn(random, geometry, case);
    }
    put_sram(random, case);
}

fn free_turn(random: &mut Random, geometry: &Geometry, case: &mut Case) {
    bank_lists(random, geometry, case);
    let image = memory::image(random, geometry);
    put_image(random, case, image);
    let place = match random.below(8) {
        0 => total(geometry) + random.below(2),
        1 => places::place(random, geometry),
        _ => places::suiting_place(random, geometry, &case.device),
    };
    case.numbers = vec![place];
}

fn reached_turn(random: &mut Random, geometry: &Geometry, case: &mut Case) {
    let mut start = places::accepted_start(random, geometry);
    let last = places::place(random, geometry);
    let mut place = places::run_to_place(geometry, &mut start, last);
    if last > total(geometry) {
        place = last;
    }
    if random.one_in(6) {
        place = places::place(random, geometry);
    }
    if random.one_in(SPOILED) {
        start.device = devices::device(random, geometry);
    }
    case.device = start.device;
    put_banks(random, case, start.banks);
    put_image(random, case, start.image);
    case.numbers = vec![place];
}
