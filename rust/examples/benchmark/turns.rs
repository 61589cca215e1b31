//! Updates, turn by turn: with the device lent, with the device by value, and by the outside model.

use std::ops::Range;

use model::device::Device as OutsideDevice;
use model::generate::{old_bank_one, random_image};
use model::geometry::{Banks, Geometry as OutsideGeometry};
use model::{store, update};
use yohrundel::{start_up, turn, turn_lent, update_start, Device, Geometry};

use crate::rounds::Side;

/// The places of a slice: so few that what else the machine does meets every side.
pub const SLICE: u32 = 8192;

/// A fresh sign before its update.
pub struct Start {
    numbers: [u32; 3],
    geometry: Geometry,
    banks: [Vec<u32>; 2],
    image: Vec<u32>,
    pub total: u32,
}

impl Start {
    pub fn new(numbers: [u32; 3]) -> Start {
        let [q, b, p] = numbers;
        let geometry = Geometry { q, b, p };
        let outside = OutsideGeometry::new(numbers).expect("a sign");
        let banks = old_bank_one(&outside, 1);
        let image = random_image(&outside, 2);
        let device = started_up(geometry);
        let started =
            update_start(geometry, device, &banks[0], &banks[1], &image).expect("an update");
        Start {
            numbers,
            geometry,
            banks,
            image,
            total: started.total,
        }
    }

    pub fn slices(&self) -> u32 {
        self.total.div_ceil(SLICE)
    }

    fn places(&self, slice: u32) -> Range<u32> {
        slice * SLICE..self.total.min((slice + 1) * SLICE)
    }
}

/// The eleven registers, the key step, the step number and what was launched.
fn numbers(device: &Device) -> Vec<u32> {
    let registers = (0..11).filter_map(|number| device.register(number));
    let steps = [device.keystep, device.step];
    let launched = device.launched.numbers();
    registers.chain(steps).chain(launched).collect()
}

fn started_up(geometry: Geometry) -> Device {
    start_up(geometry, Device::power_on()).expect("a start-up")
}

/// A device that takes turns in one of three ways.
pub trait Turns {
    /// The device before the update.
    fn new(start: &Start) -> Self;

    /// Takes the turn of a place; gives the next place.
    fn turn(&mut self, start: &Start, one: &mut [u32], two: &mut [u32], place: u32) -> u32;

    fn numbers(&self) -> Vec<u32>;
}

pub struct Lent(Device);

pub struct ByValue(Device);

pub struct Outside(OutsideDevice);

impl Turns for Lent {
    fn new(start: &Start) -> Lent {
        Lent(started_up(start.geometry))
    }

    fn turn(&mut self, start: &Start, one: &mut [u32], two: &mut [u32], place: u32) -> u32 {
        let outcome = turn_lent(
            start.geometry,
            &mut self.0,
            one,
            two,
            &start.image,
            &[],
            place,
        );
        outcome.expect("a turn").place
    }

    fn numbers(&self) -> Vec<u32> {
        numbers(&self.0)
    }
}

impl Turns for ByValue {
    fn new(start: &Start) -> ByValue {
        ByValue(started_up(start.geometry))
    }

    fn turn(&mut self, start: &Start, one: &mut [u32], two: &mut [u32], place: u32) -> u32 {
        let turned =
            turn(start.geometry, self.0, one, two, &start.image, &[], place).expect("a turn");
        self.0 = turned.device;
        turned.outcome.place
    }

    fn numbers(&self) -> Vec<u32> {
        numbers(&self.0)
    }
}

impl Turns for Outside {
    fn new(start: &Start) -> Outside {
        let device = OutsideDevice::reset_values();
        Outside(store::start_up(start.numbers, device).expect("a start-up"))
    }

    fn turn(&mut self, start: &Start, one: &mut [u32], two: &mut [u32], place: u32) -> u32 {
        let mut banks = Banks { one, two };
        let turned = update::turn(start.numbers, self.0, &mut banks, &start.image, &[], place)
            .expect("a turn");
        self.0 = turned.device;
        turned.place
    }

    fn numbers(&self) -> Vec<u32> {
        let steps = [self.0.key_step, self.0.step_number];
        let registers = self.0.registers.into_iter();
        registers.chain(steps).chain(self.0.launched.numbers()).collect()
    }
}

/// An update, taken turn by turn.
pub struct Update<'a, T> {
    pub start: &'a Start,
    device: T,
    one: Vec<u32>,
    two: Vec<u32>,
}

impl<T: Turns> Update<'_, T> {
    pub fn new(start: &Start) -> Update<'_, T> {
        let [one, two] = start.banks.clone();
        Update {
            start,
            device: T::new(start),
            one,
            two,
        }
    }

    pub fn turns(&mut self, places: Range<u32>) {
        let (one, two) = (&mut self.one[..], &mut self.two[..]);
        for place in places {
            let next = self.device.turn(self.start, one, two, place);
            assert_eq!(next, place + 1);
        }
    }

    /// The device and both banks as they are now.
    pub fn end(&self) -> (Vec<u32>, &[u32], &[u32]) {
        (self.device.numbers(), &self.one, &self.two)
    }
}

impl<T: Turns> Side for Update<'_, T> {
    fn restart(&mut self) {
        self.device = T::new(self.start);
        self.one.copy_from_slice(&self.start.banks[0]);
        self.two.copy_from_slice(&self.start.banks[1]);
    }

    fn run(&mut self, slice: u32) {
        self.turns(self.start.places(slice));
    }
}
