//! Whole updates cut at every place, and lists with a flash read, cut after it and inside it: what the program `cuts` prints.

use crate::device::Device;
use crate::flash::{flash_read, reset, step};
use crate::geometry::{Bank, Banks, Geometry, Kind, Side, ALL_ONES};
use crate::store::start_up;
use crate::update::{turn, update_start};
use crate::{Answer, Refusal};

/// A sign before power-on: its geometry, the index of its old bank, and the sequence words of the old bank and the other.
struct Sign {
    numbers: [u32; 3],
    old: usize,
    own: u32,
    other: u32,
}

const SIGNS: [Sign; 4] = [
    sign([1, 1, 1], 0, 0xFFF8_0007, 0xFFF9_0006),
    sign([1, 1, 1], 1, 0xFFF8_0007, 0x8000_8000),
    sign([2, 2, 1], 0, 0x0001_FFFE, ALL_ONES),
    sign([2, 2, 1], 1, 0x7FFF_8000, 0x8000_7FFF),
];

const fn sign(numbers: [u32; 3], old: usize, own: u32, other: u32) -> Sign {
    Sign {
        numbers,
        old,
        own,
        other,
    }
}

/// The torn masks of the cuts at each place.
pub const MASKS: [[u32; 4]; 6] = [
    [0; 4],
    [ALL_ONES; 4],
    [0x5555_5555; 4],
    [0xAAAA_AAAA; 4],
    [0x1234_5678, 0x9ABC_DEF0, 0x0F1E_2D3C, 0x4B5A_6978],
    [ALL_ONES, 0, 0, 0],
];

/// What an update works on.
#[derive(Clone)]
struct State {
    device: Device,
    banks: [Vec<u32>; 2],
}

impl State {
    fn banks(&mut self) -> Banks<'_> {
        let [one, two] = &mut self.banks;
        Banks { one, two }
    }

    /// A reset and a start-up; the number of the bank that both swaps put lower, 0 where there is none.
    fn restart(&mut self, numbers: [u32; 3], kind: u32, mask: [u32; 4]) -> u32 {
        let device = self.device;
        let after = reset(numbers, device, &mut self.banks(), &[], kind, mask);
        match after.and_then(|after| start_up(numbers, after.device)) {
            Ok(device) => self.device = device,
            Err(_) => return 0,
        }
        self.device.running_bank().map_or(0, Bank::number)
    }
}

/// A sum of words in their order, modulo a prime above every word.
#[derive(Clone, Copy)]
struct Sum(u64);

impl Sum {
    fn add(&mut self, words: &[u32]) {
        for word in words {
            self.0 = (self.0 * 1_000_003 + u64::from(*word)) % 4_294_967_311;
        }
    }

    fn add_device(&mut self, device: &Device) {
        self.add(&device.registers);
        self.add(&[device.key_step, device.step_number]);
        self.add(&device.launched.numbers());
    }
}

/// The sums of a line.
#[derive(Clone, Copy)]
struct Sums {
    state: Sum,
    devices: Sum,
    cut: [Sum; 2],
    again: [Sum; 2],
}

impl Sums {
    fn of(state: &State) -> Sums {
        let mut sum = Sum(0);
        sum.add_device(&state.device);
        sum.add(&state.banks[0]);
        sum.add(&state.banks[1]);
        Sums {
            state: sum,
            devices: Sum(0),
            cut: [Sum(0); 2],
            again: [Sum(0); 2],
        }
    }

    fn numbers(&self) -> [u64; 6] {
        let ([one, two], [again_one, again_two]) = (self.cut, self.again);
        [self.state, self.devices, one, two, again_one, again_two].map(|sum| sum.0)
    }
}

/// The words of a bank or image before power-on.
fn words(geometry: &Geometry, seed: u64) -> Vec<u32> {
    (1..=u64::from(geometry.bank_words()))
        .map(|number| (number * 2_654_435_761 + seed * 987_654_321) as u32)
        .collect()
}

/// All lines.
pub fn cuts() -> String {
    SIGNS.iter().map(lines).collect()
}

fn line(numbers: &[u64]) -> String {
    let parts: Vec<String> = numbers.iter().map(u64::to_string).collect();
    parts.join(" ") + "\n"
}

fn refusal_number(refusal: Refusal) -> u64 {
    u64::from(refusal.number())
}

/// The lines of a sign: the first of the sign itself, then one for each place up to the total, then those of the lists with a
/// read.
fn lines(sign: &Sign) -> String {
    let Ok(geometry) = Geometry::new(sign.numbers) else {
        return String::new();
    };
    let mut banks = [words(&geometry, 1), words(&geometry, 2)];
    banks[sign.old][geometry.sequence_index()] = sign.own;
    banks[1 - sign.old][geometry.sequence_index()] = sign.other;
    let image = words(&geometry, 3);
    let mut state = State {
        device: Device::reset_values(),
        banks,
    };
    let runs = state.restart(sign.numbers, 0, [0; 4]);
    let device = state.device;
    let start = update_start(sign.numbers, &device, &state.banks(), &image);
    let (answer, total) = match start {
        Ok((_, total)) => (0, total),
        Err(refusal) => (refusal_number(refusal), 0),
    };
    let [row_quads, boot_pages, program_pages] = sign.numbers.map(u64::from);
    let first = [row_quads, boot_pages, program_pages];
    let mut text = line(&[&first[..], &[u64::from(runs), answer, u64::from(total)]].concat());
    let mut lists = String::new();
    for place in 0..=total {
        lists.push_str(&read_lines(sign, &geometry, &image, &state, place));
        let cuts = cut_numbers(sign, &image, &state);
        let answer = turn_numbers(sign, &image, &mut state, place);
        text.push_str(&line(&[&[u64::from(place)], &cuts[..], &answer].concat()));
    }
    text + &lists
}

/// The cuts of a state, and the sums.
fn cut_numbers(sign: &Sign, image: &[u32], state: &State) -> Vec<u64> {
    let mut sums = Sums::of(state);
    let mut numbers = Vec::new();
    for kind in 0..3 {
        for mask in MASKS {
            numbers.extend(cut(sign, image, state.clone(), (kind, mask), &mut sums));
        }
    }
    numbers.extend(sums.numbers());
    numbers
}

/// The turn of a place is done; its answer, done and event.
fn turn_numbers(sign: &Sign, image: &[u32], state: &mut State, place: u32) -> [u64; 3] {
    let device = state.device;
    match turn(sign.numbers, device, &mut state.banks(), image, &[], place) {
        Ok(after) => {
            state.device = after.device;
            [0, u64::from(after.done), u64::from(after.event)]
        }
        Err(refusal) => [refusal_number(refusal), 0, 0],
    }
}

/// The lists with a read of the new bank after the turns up to a place: with all of the read, then ended inside it.
fn read_lines(
    sign: &Sign,
    geometry: &Geometry,
    image: &[u32],
    before: &State,
    place: u32,
) -> String {
    let mut state = before.clone();
    // in an update the new bank stands upper; 32 program words are the fewest
    let start = geometry.window_start(Kind::Program, Side::Upper);
    let address = start + 4 * (place % 32);
    let device = state.device;
    let read = flash_read(sign.numbers, device, &mut state.banks(), &[], address);
    let (answer, waits) = match read {
        Ok(read) => {
            state.device = read.device;
            ([0, u64::from(read.word), u64::from(read.event)], read.event)
        }
        Err(refusal) => ([refusal_number(refusal), 0, 0], false),
    };
    let cuts = cut_numbers(sign, image, &state);
    let turned = turn_numbers(sign, image, &mut state, place);
    let text = line(&[&[u64::from(place), 0], &answer[..], &cuts, &turned].concat());
    if !waits {
        return text;
    }
    let inside = inside_lines(sign, image, before.clone(), place);
    text + &inside.unwrap_or_default()
}

/// The lists that end inside a read that waits: after each of its steps but the last.
fn inside_lines(sign: &Sign, image: &[u32], mut state: State, place: u32) -> Answer<String> {
    let mut text = String::new();
    for count in 1.. {
        let device = state.device;
        let (device, event) = step(sign.numbers, device, &mut state.banks(), &[])?;
        state.device = device;
        if !device.running() {
            break;
        }
        let first = [u64::from(place), count, 0, u64::from(event)];
        let cuts = cut_numbers(sign, image, &state);
        text.push_str(&line(&[&first[..], &cuts].concat()));
    }
    Ok(text)
}

/// One cut: the bank that runs then, the answer of a second start, and the bank that runs after the second update.
fn cut(
    sign: &Sign,
    image: &[u32],
    mut state: State,
    (kind, mask): (u32, [u32; 4]),
    sums: &mut Sums,
) -> [u64; 3] {
    let runs = state.restart(sign.numbers, kind, mask);
    sums.devices.add_device(&state.device);
    for bank in 0..2 {
        sums.cut[bank].add(&state.banks[bank]);
    }
    // "Where B runs the old bank, the same update is accepted again"
    if runs as usize != sign.old + 1 {
        return [u64::from(runs), 0, 0];
    }
    let device = state.device;
    let start = update_start(sign.numbers, &device, &state.banks(), image);
    let total = match start {
        Ok((_, total)) => total,
        Err(refusal) => return [u64::from(runs), refusal_number(refusal), 0],
    };
    let after = again(sign, image, &mut state, total, sums);
    [u64::from(runs), 0, u64::from(after)]
}

/// The whole update from a start's state, then power-on and start-up; the bank that runs then, 0 where it isn't done.
fn again(sign: &Sign, image: &[u32], state: &mut State, total: u32, sums: &mut Sums) -> u32 {
    let (mut place, mut events, mut done) = (0, 0, false);
    for _ in 0..=total {
        let device = state.device;
        let Ok(after) = turn(sign.numbers, device, &mut state.banks(), image, &[], place) else {
            break;
        };
        (state.device, place, done) = (after.device, after.place, after.done);
        events += u32::from(after.event);
    }
    sums.devices.add_device(&state.device);
    sums.devices.add(&[place, events]);
    for bank in 0..2 {
        sums.again[bank].add(&state.banks[bank]);
    }
    if !done {
        return 0;
    }
    state.restart(sign.numbers, 0, [0; 4])
}
