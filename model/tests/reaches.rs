//! How far one word reaches: the actions that differ, and two updates beside each other.

use model::device::{Device, BFSWAP, NVMCON, NVMDATA0, PFSWAP};
use model::flash::{flash_read, reset};
use model::generate::{accepted_start, random_image, Start};
use model::geometry::{Banks, Geometry, LOWER_PROGRAM, UPPER_BOOT};
use model::random::Random;
use model::reach::{reach, Reach};
use model::store::{start_up, PLAIN};
use model::update::{action, total, turn, Action};
use model::Refusal;

fn sign(numbers: [u32; 3]) -> Geometry {
    Geometry::new(numbers).unwrap()
}

/// The image with some words changed.
fn changed(image: &[u32], indices: &[usize], bits: u32) -> Vec<u32> {
    let mut other = image.to_vec();
    for index in indices {
        other[*index] ^= bits;
    }
    other
}

/// The places at which the two lists of actions differ.
fn differing_places(geometry: &Geometry, image: &[u32], other: &[u32]) -> Vec<u32> {
    let places = 0..total(geometry);
    let low = 7;
    places
        .filter(|place| {
            action(geometry, low, image, *place) != action(geometry, low, other, *place)
        })
        .collect()
}

/// "exactly one action differs, a data store", and "Inside the sequence quad nothing differs."
fn check_word(geometry: &Geometry, image: &[u32], index: usize) {
    let other = changed(image, &[index], 0x0001_8000);
    let places = differing_places(geometry, image, &other);
    let answer = reach(geometry.numbers(), image, &other).unwrap();
    let sequence = geometry.sequence_index();
    if (sequence..sequence + 4).contains(&index) {
        assert_eq!((answer, &places[..]), (Reach::NoAction, &[][..]));
        return;
    }
    let place = places[0];
    assert_eq!((answer, places.len()), (Reach::Action { place }, 1));
    for image in [image, &other] {
        let data_store = Action::Store {
            register: (NVMDATA0 + index % 4) as u32,
            form: PLAIN,
            value: image[index],
        };
        assert_eq!(action(geometry, 7, image, place), data_store);
    }
}

#[test]
fn every_word_of_small_signs() {
    for numbers in [[1, 1, 1], [1, 2, 1], [1, 1, 2], [2, 1, 1], [2, 3, 2]] {
        let geometry = sign(numbers);
        let image = random_image(&geometry, 3);
        for index in 0..image.len() {
            check_word(&geometry, &image, index);
        }
    }
}

#[test]
fn words_of_larger_signs() {
    let mut random = Random::new(4);
    for numbers in [[4, 5, 7], [8, 1, 64], [64, 2, 1], [128, 5, 128]] {
        let geometry = sign(numbers);
        let image = random_image(&geometry, 5);
        let (last, sequence) = (image.len() - 1, geometry.sequence_index());
        let any = [0, 1].map(|_| random.below(image.len() as u32) as usize);
        for index in [0, sequence - 1, sequence, sequence + 3, sequence + 4, last]
            .into_iter()
            .chain(any)
        {
            check_word(&geometry, &image, index);
        }
    }
}

/// "the number of differing words and the lowest and highest differing word"; each of them outside the sequence quad is an action.
#[test]
fn several_words() {
    let mut random = Random::new(6);
    for number in 0..400 {
        let numbers = [[1, 1, 1], [1, 2, 1], [2, 1, 2], [1, 3, 2]][number % 4];
        let geometry = sign(numbers);
        let image = random_image(&geometry, 7);
        let words = image.len() as u32;
        let count = random.pick(&[2, 3, 4, 9, words]);
        let mut indices: Vec<usize> = (0..image.len()).collect();
        while indices.len() > count as usize {
            indices.remove(random.below(indices.len() as u32) as usize);
        }
        let other = changed(&image, &indices, 1 << random.below(32));
        let (lowest, highest) = (indices[0] as u32, indices[indices.len() - 1] as u32);
        let expected = Reach::Words {
            count,
            lowest,
            highest,
        };
        assert_eq!(reach(numbers, &image, &other), Ok(expected));
        let sequence = geometry.sequence_index();
        indices.retain(|index| !(sequence..sequence + 4).contains(index));
        let places = differing_places(&geometry, &image, &other);
        assert_eq!(places.len(), indices.len());
    }
}

/// "for equal images all three are 0".
#[test]
fn equal_images() {
    for numbers in [[1, 1, 1], [2, 3, 2], [128, 5, 128]] {
        let image = random_image(&sign(numbers), 8);
        let expected = Reach::Words {
            count: 0,
            lowest: 0,
            highest: 0,
        };
        assert_eq!(reach(numbers, &image, &image), Ok(expected));
    }
}

#[test]
fn images_of_other_lengths() {
    let (right, short, long) = ([7; 64], [7; 63], [7; 65]);
    for (image, other) in [
        (&short[..], &right[..]),
        (&right, &short),
        (&right, &long),
        (&long, &long),
        (&[], &right),
        (&[], &[]),
    ] {
        assert_eq!(reach([1, 1, 1], image, other), Err(Refusal::Length));
        assert_eq!(reach([3, 1, 1], image, other), Err(Refusal::Geometry));
    }
}

/// One sign and the place of its update.
#[derive(Clone)]
struct State {
    device: Device,
    banks: [Vec<u32>; 2],
    place: u32,
}

impl State {
    fn turn(&mut self, numbers: [u32; 3], image: &[u32]) {
        let [one, two] = &mut self.banks;
        let mut banks = Banks { one, two };
        match turn(numbers, self.device, &mut banks, image, &[], self.place) {
            Ok(after) => (self.device, self.place) = (after.device, after.place),
            // A read did its step.
            Err(refusal) => assert_eq!(refusal, Refusal::NotRunning),
        }
    }

    /// A flash read; whether it waited.
    fn read(&mut self, numbers: [u32; 3], address: u32) -> bool {
        let [one, two] = &mut self.banks;
        let mut banks = Banks { one, two };
        let read = flash_read(numbers, self.device, &mut banks, &[], address).unwrap();
        self.device = read.device;
        read.event
    }

    fn restart(&mut self, numbers: [u32; 3], kind: u32, mask: [u32; 4]) {
        let [one, two] = &mut self.banks;
        let mut banks = Banks { one, two };
        let restart = reset(numbers, self.device, &mut banks, &[], kind, mask).unwrap();
        self.device = start_up(numbers, restart.device).unwrap();
    }

    /// BFSWAP and PFSWAP, which choose the bank that runs.
    fn swaps(&self) -> u32 {
        self.device.registers[NVMCON] & (BFSWAP | PFSWAP)
    }
}

/// Two updates begun from the same start with images that differ in one word.
struct TwoUpdates {
    numbers: [u32; 3],
    images: [Vec<u32>; 2],
    states: [State; 2],
    /// The word of the new bank that may differ: the bank's index, and the word's.
    word: Option<(usize, usize)>,
}

impl TwoUpdates {
    fn new(geometry: &Geometry, start: Start, index: usize, bits: u32) -> TwoUpdates {
        let (device, banks) = (start.device, start.banks);
        let state = State {
            device,
            banks,
            place: 0,
        };
        let sequence = geometry.sequence_index();
        let inside = (sequence..sequence + 4).contains(&index);
        let new = usize::from(!device.con(BFSWAP));
        let other = changed(&start.image, &[index], bits);
        TwoUpdates {
            numbers: geometry.numbers(),
            images: [start.image, other],
            states: [state.clone(), state],
            word: (!inside).then_some((new, index)),
        }
    }

    fn turn(&mut self) {
        for (state, image) in self.states.iter_mut().zip(&self.images) {
            state.turn(self.numbers, image);
        }
    }

    fn read(&mut self, address: u32) -> bool {
        let [first, other] = &mut self.states;
        let waited = first.read(self.numbers, address);
        assert_eq!(other.read(self.numbers, address), waited);
        waited
    }

    /// "the banks differ in at most that one word"; true where they do.
    fn check(states: &[State; 2], word: Option<(usize, usize)>) -> bool {
        let [first, other] = states;
        assert_eq!(first.place, other.place);
        let mut differs = false;
        for bank in 0..2 {
            for (index, words) in first.banks[bank].iter().zip(&other.banks[bank]).enumerate() {
                if words.0 != words.1 {
                    assert_eq!(word, Some((bank, index)), "at place {}", first.place);
                    differs = true;
                }
            }
        }
        differs
    }

    /// The same cut of both, with a start-up; true where the banks differ.
    fn check_cut(&self, kind: u32, mask: [u32; 4]) -> bool {
        let mut states = self.states.clone();
        for state in &mut states {
            state.restart(self.numbers, kind, mask);
        }
        assert_eq!(states[0].swaps(), states[1].swaps());
        TwoUpdates::check(&states, self.word)
    }
}

/// Every place of the two updates, cut by each kind of reset, with flash reads between the turns; true where the banks differ at last.
fn check_updates(geometry: &Geometry, mut two: TwoUpdates, random: &mut Random) -> bool {
    let upper = LOWER_PROGRAM + geometry.region_bytes();
    let last = total(geometry);
    while two.states[0].place < last {
        for kind in 0..3 {
            two.check_cut(kind, random.mask());
        }
        let address = random.pick(&[LOWER_PROGRAM, upper, UPPER_BOOT]);
        // After a read that waited each turn is declined.
        if random.one_in(last) && two.read(address) {
            two.turn();
            return two.check_cut(random.below(3), random.mask());
        }
        two.turn();
        TwoUpdates::check(&two.states, two.word);
    }
    let differs = two.check_cut(0, [0; 4]);
    assert_eq!(differs, two.word.is_some());
    differs
}

#[test]
fn two_updates_of_one_start() {
    let mut random = Random::new(9);
    let (mut differing, mut equal) = (0, 0);
    for number in 0..160 {
        let numbers = [[1, 1, 1], [1, 2, 1], [1, 1, 2], [2, 1, 1]][number % 4];
        let geometry = sign(numbers);
        let start = accepted_start(&mut random, &geometry);
        let index = match random.below(4) {
            0 => geometry.sequence_index() as u32 - 4 + random.below(12),
            _ => random.below(geometry.bank_words()),
        };
        let bits = random.edge_word().max(1);
        let two = TwoUpdates::new(&geometry, start, index as usize, bits);
        match check_updates(&geometry, two, &mut random) {
            true => differing += 1,
            false => equal += 1,
        }
    }
    assert!(differing > 80 && equal > 5);
}
