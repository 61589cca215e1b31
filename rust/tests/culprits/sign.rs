//! A sign with Q = B = P = 1 and the calls on it.

use yohrundel::*;

use crate::{told, Told};

/// Pages of 128 bytes, banks of 64 words.
pub const SMALL: Geometry = Geometry { q: 1, b: 1, p: 1 };

/// The index of the sequence word: the last quad of the boot page's 32 words.
pub const SEQUENCE: usize = 28;

/// After power-on with T = 1 in bank 1 and bank 2 erased. Its update start is accepted.
#[derive(Clone)]
pub struct Sign {
    pub geometry: Geometry,
    pub device: Device,
    pub one: Vec<u32>,
    pub two: Vec<u32>,
    pub image: Vec<u32>,
    pub sram: Vec<u32>,
}

impl Sign {
    pub fn new() -> Sign {
        let mut one = vec![!0; 64];
        one[SEQUENCE] = 0xFFFE_0001;
        Sign {
            geometry: SMALL,
            device: Device::power_on(),
            one,
            two: vec![!0; 64],
            image: vec![7; 64],
            sram: Vec::new(),
        }
    }

    /// A page erase of the lower program region runs, at its first step.
    pub fn running() -> Sign {
        let mut sign = Sign::new();
        sign.device.nvmcon = 0xA004;
        sign.device.launched.nvmaddr = 0x1D00_0000;
        sign
    }

    pub fn store(&self, register: u32, form: u32) -> Told {
        let (sign, device) = (self.geometry, self.device);
        let answer = store(sign, device, register, form, 0);
        told(culprit::store(sign, &device, register, form), answer)
    }

    pub fn register_read(&self, register: u32) -> Told {
        let (sign, device) = (self.geometry, self.device);
        let answer = register_read(sign, device, register);
        told(culprit::register_read(sign, &device, register), answer)
    }

    pub fn start_up(&self) -> Told {
        let (sign, device) = (self.geometry, self.device);
        told(culprit::start_up(sign, &device), start_up(sign, device))
    }

    pub fn lower_bank(&self) -> Told {
        let (sign, device, one, two) = (self.geometry, self.device, &self.one, &self.two);
        let answer = lower_bank(sign, device, one, two);
        told(culprit::lower_bank(sign, &device, one, two), answer)
    }

    pub fn flash_read(&self, address: u32) -> Told {
        let Sign { device, sram, .. } = self;
        let (mut one, mut two) = (self.one.clone(), self.two.clone());
        let named = culprit::flash_read(self.geometry, device, &one, &two, sram, address);
        let answer = flash_read(self.geometry, *device, &mut one, &mut two, sram, address);
        told(named, answer)
    }

    pub fn step(&self) -> Told {
        let Sign { device, sram, .. } = self;
        let (mut one, mut two) = (self.one.clone(), self.two.clone());
        let named = culprit::step(self.geometry, device, &one, &two, sram);
        told(
            named,
            step(self.geometry, *device, &mut one, &mut two, sram),
        )
    }

    pub fn reset(&self, kind: u32) -> Told {
        let (sign, device, sram) = (self.geometry, self.device, &self.sram);
        let (mut one, mut two) = (self.one.clone(), self.two.clone());
        let named = culprit::reset(sign, &device, &one, &two, sram, kind);
        let answer = reset(sign, device, &mut one, &mut two, sram, kind, [0; 4]);
        told(named, answer)
    }

    pub fn update_start(&self) -> Told {
        let (sign, device, one, two) = (self.geometry, self.device, &self.one, &self.two);
        let named = culprit::update_start(sign, &device, one, two, &self.image);
        told(named, update_start(sign, device, one, two, &self.image))
    }

    pub fn turn(&self, place: u32) -> Told {
        let (sign, device, image, sram) = (self.geometry, self.device, &self.image, &self.sram);
        let (mut one, mut two) = (self.one.clone(), self.two.clone());
        let named = culprit::turn(sign, &device, &one, &two, image, sram, place);
        let answer = turn(sign, device, &mut one, &mut two, image, sram, place);
        told(named, answer)
    }

    pub fn play(&self, script: &[u8]) -> Told {
        let (sign, device, sram) = (self.geometry, self.device, &self.sram);
        let (mut one, mut two) = (self.one.clone(), self.two.clone());
        let named = culprit::play(sign, &device, &one, &two, sram, script);
        let answer = play(sign, device, &mut one, &mut two, sram, script, &mut []);
        told(named, answer)
    }

    pub fn write_script(&self, bytes: usize) -> Told {
        let (sign, device, one, two) = (self.geometry, self.device, &self.one, &self.two);
        let (image, mut buffer) = (&self.image, vec![0; bytes]);
        let named = culprit::write_script(sign, &device, one, two, image, &buffer);
        told(
            named,
            write_script(sign, device, one, two, image, &mut buffer),
        )
    }

    pub fn page_sheet(&self, bytes: usize) -> Told {
        let (sign, device, one, two) = (self.geometry, self.device, &self.one, &self.two);
        let mut buffer = vec![0; bytes];
        let named = culprit::page_sheet(sign, &device, one, two, &buffer);
        told(named, page_sheet(sign, device, one, two, &mut buffer))
    }

    /// On scratch banks and into a result of some lengths.
    pub fn smallest(&self, lengths: [usize; 3], script: &[u8], number: u32) -> Told {
        let bench = Bench {
            geometry: self.geometry,
            device: self.device,
            one: &self.one,
            two: &self.two,
            sram: &self.sram,
        };
        let [first, second, bytes] = lengths;
        let (mut first, mut second, mut result) = (vec![0; first], vec![0; second], vec![0; bytes]);
        let named = culprit::smallest(&bench, [&first, &second], script, number, &result);
        let scratch = [&mut first[..], &mut second];
        told(named, smallest(bench, scratch, script, number, &mut result))
    }
}
