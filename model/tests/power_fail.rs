//! Power-fail safety: an update cut after any number of turns, with flash reads between them, and inside a read that waits.

use model::device::Device;
use model::flash::{flash_read, reset, step};
use model::generate::{accepted_start, random_image};
use model::geometry::{Bank, Banks, Geometry, Kind, Side, ALL_ONES};
use model::random::Random;
use model::sequence::{low_half, new_quad, word_of};
use model::store::start_up;
use model::update::{turn, update_start};
use model::Refusal;

/// A sign at the start of an update, and what must come of it.
struct Sign {
    numbers: [u32; 3],
    old: Bank,
    device: Device,
    banks: [Vec<u32>; 2],
    image: Vec<u32>,
    new: Vec<u32>,
}

#[derive(Clone, Debug, PartialEq)]
struct State {
    device: Device,
    banks: [Vec<u32>; 2],
    place: u32,
}

fn words(banks: &[Vec<u32>; 2], bank: Bank) -> &[u32] {
    &banks[bank.number() as usize - 1]
}

impl Sign {
    /// A fresh sign: the old bank holds T = `low`, the other bank a given sequence word.
    fn new(numbers: [u32; 3], old: Bank, low: u16, other: u32) -> Sign {
        let geometry = Geometry::new(numbers).unwrap();
        let index = geometry.sequence_index();
        let mut banks = [random_image(&geometry, 5), random_image(&geometry, 6)];
        let old_number = old.number() as usize - 1;
        banks[old_number][index] = word_of(low);
        banks[1 - old_number][index] = other;
        let mut state = State {
            device: Device::reset_values(),
            banks,
            place: 0,
        };
        restart(numbers, &mut state, 0, [0; 4]);
        assert_eq!(state.device.running_bank(), Some(old));
        let image = random_image(&geometry, 7);
        Sign::from_start(&geometry, state.device, state.banks, image)
    }

    fn from_start(
        geometry: &Geometry,
        device: Device,
        banks: [Vec<u32>; 2],
        image: Vec<u32>,
    ) -> Sign {
        let old = device.running_bank().expect("both swaps agree");
        let index = geometry.sequence_index();
        let low = low_half(words(&banks, old)[index]);
        let mut new = image.clone();
        new[index..index + 4].copy_from_slice(&new_quad(low));
        Sign {
            numbers: geometry.numbers(),
            old,
            device,
            banks,
            image,
            new,
        }
    }

    fn start(&self) -> State {
        State {
            device: self.device,
            banks: self.banks.clone(),
            place: 0,
        }
    }

    fn accepts(&self, state: &mut State) -> u32 {
        let [one, two] = &mut state.banks;
        let banks = Banks { one, two };
        let (place, total) =
            update_start(self.numbers, &state.device, &banks, &self.image).unwrap();
        assert_eq!(place, 0);
        state.place = 0;
        total
    }

    /// Turns until a place, or until done.
    fn run(&self, state: &mut State, last: u32) {
        let [one, two] = &mut state.banks;
        let mut banks = Banks { one, two };
        while state.place < last {
            let (device, place) = (state.device, state.place);
            let after = turn(self.numbers, device, &mut banks, &self.image, &[], place).unwrap();
            assert!(!after.done);
            assert_eq!(after.place, place + 1);
            (state.device, state.place) = (after.device, after.place);
        }
    }

    /// Runs to the end, says done, and after a restart runs the new bank.
    fn finish(&self, state: &mut State) {
        let total = self.accepts(state);
        self.run(state, total);
        let [one, two] = &mut state.banks;
        let mut banks = Banks { one, two };
        let device = state.device;
        let after = turn(self.numbers, device, &mut banks, &self.image, &[], total).unwrap();
        assert!(after.done && after.device == device && after.place == total && !after.event);
        restart(self.numbers, state, 0, [0; 4]);
        assert_eq!(state.device.running_bank(), Some(self.old.other()));
        self.check_new(state);
    }

    /// A flash read without SRAM; true where it waited.
    fn read(&self, state: &mut State, address: u32) -> bool {
        let [one, two] = &mut state.banks;
        let mut banks = Banks { one, two };
        let read = flash_read(self.numbers, state.device, &mut banks, &[], address).unwrap();
        state.device = read.device;
        read.event
    }

    /// One of the steps inside a read.
    fn step(&self, state: &mut State) {
        let [one, two] = &mut state.banks;
        let mut banks = Banks { one, two };
        state.device = step(self.numbers, state.device, &mut banks, &[]).unwrap().0;
    }

    /// A turn; one whose step a read has done is declined and keeps its place.
    fn turn(&self, state: &mut State) {
        let [one, two] = &mut state.banks;
        let mut banks = Banks { one, two };
        let (device, place) = (state.device, state.place);
        match turn(self.numbers, device, &mut banks, &self.image, &[], place) {
            Ok(after) => (state.device, state.place) = (after.device, after.place),
            Err(refusal) => assert_eq!(refusal, Refusal::NotRunning),
        }
    }

    /// The first address of each of the four windows.
    fn windows(&self) -> [u32; 4] {
        let geometry = Geometry::new(self.numbers).unwrap();
        let windows = [Kind::Boot, Kind::Program].map(|kind| {
            let sides = [Side::Lower, Side::Upper];
            sides.map(|side| geometry.window_start(kind, side))
        });
        [windows[0][0], windows[0][1], windows[1][0], windows[1][1]]
    }

    fn check_new(&self, state: &State) {
        assert_eq!(words(&state.banks, self.old), words(&self.banks, self.old));
        assert_eq!(words(&state.banks, self.old.other()), &self.new[..]);
    }

    /// One cut of a state, and everything that is claimed of it; true where it runs new.
    fn check_cut(&self, reached: &State, kind: u32, mask: [u32; 4]) -> bool {
        let mut state = reached.clone();
        restart(self.numbers, &mut state, kind, mask);
        assert_eq!(words(&state.banks, self.old), words(&self.banks, self.old));
        let runs = state.device.running_bank().expect("both swaps agree");
        if runs == self.old {
            self.finish(&mut state);
            return false;
        }
        self.check_new(&state);
        true
    }
}

fn restart(numbers: [u32; 3], state: &mut State, kind: u32, mask: [u32; 4]) {
    let [one, two] = &mut state.banks;
    let mut banks = Banks { one, two };
    let restart = reset(numbers, state.device, &mut banks, &[], kind, mask).unwrap();
    state.device = start_up(numbers, restart.device).unwrap();
}

fn masks(random: &mut Random) -> Vec<[u32; 4]> {
    let any = |random: &mut Random| [random.word(), random.word(), random.word(), random.word()];
    let mut first = any(random);
    first[0] = ALL_ONES;
    let mut half = [ALL_ONES; 4];
    half[0] = 0x0000_FFFF;
    vec![
        [0; 4],
        [ALL_ONES; 4],
        any(random),
        random.mask(),
        first,
        half,
    ]
}

/// Cuts after every `stride`-th number of turns; counts the cuts that run new.
fn check_cuts(sign: &Sign, stride: u32) -> u32 {
    let mut random = Random::new(8);
    let mut state = sign.start();
    let total = sign.accepts(&mut state);
    let mut runs_new = 0;
    let mut place = 0;
    while place <= total {
        sign.run(&mut state, place);
        for kind in 0..3 {
            for mask in masks(&mut random) {
                runs_new += u32::from(sign.check_cut(&state, kind, mask));
            }
        }
        place += stride;
    }
    runs_new
}

#[test]
fn every_cut_of_the_smallest_sign() {
    let others = [ALL_ONES, word_of(0), word_of(6), 0xFFFF_0001, 0x8000_8000];
    for old in [Bank::One, Bank::Two] {
        for other in others {
            let sign = Sign::new([1, 1, 1], old, 7, other);
            sign.finish(&mut sign.start());
            assert!(check_cuts(&sign, 1) > 0);
        }
    }
}

#[test]
fn every_cut_with_equal_or_highest_sequence() {
    let equal = Sign::new([1, 1, 1], Bank::One, 7, word_of(7));
    assert!(check_cuts(&equal, 1) > 0);
    for old in [Bank::One, Bank::Two] {
        let highest = Sign::new([1, 1, 1], old, 65_534, word_of(65_533));
        assert!(check_cuts(&highest, 1) > 0);
    }
}

#[test]
fn some_cuts_of_a_larger_sign() {
    for old in [Bank::One, Bank::Two] {
        let sign = Sign::new([2, 2, 2], old, 300, word_of(299));
        sign.finish(&mut sign.start());
        check_cuts(&sign, 7);
    }
}

#[test]
fn cuts_of_an_update_that_follows_a_cut() {
    let sign = Sign::new([1, 1, 1], Bank::Two, 9, word_of(8));
    let mut random = Random::new(9);
    for first in (0..252).step_by(11) {
        let mut state = sign.start();
        sign.run(&mut state, first);
        restart(sign.numbers, &mut state, random.below(3), random.mask());
        if state.device.running_bank() != Some(sign.old) {
            continue;
        }
        sign.accepts(&mut state);
        for second in (0..252).step_by(5) {
            sign.run(&mut state, second);
            sign.check_cut(&state, random.below(3), random.mask());
        }
    }
}

#[test]
fn cuts_of_any_accepted_start() {
    let mut random = Random::new(11);
    for number in 0..200 {
        let numbers = [[1, 1, 1], [1, 2, 1], [1, 1, 2], [2, 1, 1]][number % 4];
        let geometry = Geometry::new(numbers).unwrap();
        let start = accepted_start(&mut random, &geometry);
        let sign = Sign::from_start(&geometry, start.device, start.banks, start.image);
        let mut state = sign.start();
        let total = sign.accepts(&mut state);
        sign.finish(&mut sign.start());
        for part in 1..=12 {
            sign.run(&mut state, total * part / 12 - random.below(total / 12));
            let kind = random.below(3);
            for mask in masks(&mut random) {
                sign.check_cut(&state, kind, mask);
            }
        }
    }
}

/// Where a step is next, the states of run A up to the end of its block; one state where none runs.
fn rest_of_block(sign: &Sign, reached: &State) -> Vec<State> {
    let mut states = vec![reached.clone()];
    let mut state = reached.clone();
    while state.device.running() {
        sign.turn(&mut state);
        states.push(state.clone());
    }
    states
}

/// At every place, a read of every window: it leaves run A's state at the end of the block, or changes nothing.
#[test]
fn a_read_that_waits_leaves_a_later_place() {
    for old in [Bank::One, Bank::Two] {
        let sign = Sign::new([1, 1, 1], old, 7, word_of(6));
        let mut state = sign.start();
        let mut waits = 0;
        for place in 0..=sign.accepts(&mut state) {
            sign.run(&mut state, place);
            let later = rest_of_block(&sign, &state).pop().unwrap();
            for (number, address) in sign.windows().into_iter().enumerate() {
                let mut read = state.clone();
                let waited = sign.read(&mut read, address);
                // The upper windows are of the new bank, which alone is worked on.
                assert_eq!(waited, state.device.running() && number % 2 == 1);
                let end = if waited { &later } else { &state };
                assert_eq!((read.device, &read.banks), (end.device, &end.banks));
                assert_eq!(read.place, place);
                waits += u32::from(waited);
            }
        }
        assert_eq!(waits, 2 * (2 * 8 + 16));
    }
}

#[test]
fn turns_after_a_read_that_waited_keep_their_place() {
    let sign = Sign::new([1, 1, 1], Bank::One, 7, word_of(6));
    let [_, boot, _, program] = sign.windows();
    let mut state = sign.start();
    for place in 0..sign.accepts(&mut state) {
        sign.run(&mut state, place);
        let mut read = state.clone();
        if !sign.read(&mut read, boot) {
            continue;
        }
        let waited = read.clone();
        for _ in 0..3 {
            sign.turn(&mut read);
            assert!(!sign.read(&mut read, program));
            assert_eq!(read, waited);
        }
    }
}

/// A read of the new bank at every place, then turns, then a cut.
#[test]
fn every_cut_after_a_read() {
    let mut random = Random::new(13);
    for (old, other) in [(Bank::One, word_of(6)), (Bank::Two, 0x8000_8000)] {
        let sign = Sign::new([1, 1, 1], old, 7, other);
        let mut state = sign.start();
        let mut runs_new = 0;
        for place in 0..=sign.accepts(&mut state) {
            sign.run(&mut state, place);
            let mut read = state.clone();
            sign.read(&mut read, sign.windows()[1]);
            for kind in 0..3 {
                for mask in masks(&mut random) {
                    runs_new += u32::from(sign.check_cut(&read, kind, mask));
                }
                sign.turn(&mut read);
            }
        }
        assert!(runs_new > 0);
    }
}

/// The supply fails after any number of a read's steps, before the last of them or inside the next.
#[test]
fn every_cut_inside_a_read() {
    let mut random = Random::new(14);
    for old in [Bank::One, Bank::Two] {
        let sign = Sign::new([1, 1, 1], old, 7, word_of(6));
        let mut state = sign.start();
        let mut runs_new = 0;
        for place in 0..=sign.accepts(&mut state) {
            sign.run(&mut state, place);
            let mut inside = state.clone();
            while inside.device.running() {
                for mask in masks(&mut random) {
                    let kind = random.below(3);
                    runs_new += u32::from(sign.check_cut(&inside, kind, mask));
                }
                sign.step(&mut inside);
            }
            let mut read = state.clone();
            sign.read(&mut read, sign.windows()[3]);
            assert_eq!(read, inside);
        }
        assert!(runs_new > 0);
    }
}

/// Any turns and reads from any accepted start, cut after the list or inside its last read.
#[test]
fn cuts_of_lists_with_reads() {
    let mut random = Random::new(15);
    let (mut waited, mut inside, mut runs_new) = (0, 0, 0);
    for number in 0..600 {
        let numbers = [[1, 1, 1], [1, 2, 1], [1, 1, 2], [2, 1, 1]][number % 4];
        let geometry = Geometry::new(numbers).unwrap();
        let start = accepted_start(&mut random, &geometry);
        let sign = Sign::from_start(&geometry, start.device, start.banks, start.image);
        let mut state = sign.start();
        let total = sign.accepts(&mut state);
        let turns = total - random.below(total).min(random.below(total));
        for _ in 0..turns {
            if random.one_in(20) {
                let address = sign.windows()[random.pick(&[0, 2])];
                assert!(!sign.read(&mut state, address + 4 * random.below(32)));
            }
            if random.one_in(total) {
                waited += u32::from(sign.read(&mut state, random.pick(&sign.windows())));
            }
            sign.turn(&mut state);
        }
        for _ in 0..random.below(8) {
            if state.device.running() {
                sign.step(&mut state);
                inside += 1;
            }
        }
        let kind = random.below(3);
        for mask in masks(&mut random) {
            runs_new += u32::from(sign.check_cut(&state, kind, mask));
        }
    }
    assert!(waited > 5 && inside > 20 && runs_new > 20);
}
