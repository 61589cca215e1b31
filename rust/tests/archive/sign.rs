//! One sign in the archive and in the model: each call is made of both, and what it gives and leaves is compared.

use model::device::Device as OutsideDevice;
use model::generate::Start;
use model::geometry::Banks;
use model::sequence::new_quad;
use model::{flash, store, update};
use yohrundel::*;

/// One sign in the archive and in the model.
pub struct Sign {
    pub numbers: [u32; 3],
    pub geometry: Geometry,
    pub image: Vec<u32>,
    pub device: Device,
    pub banks: [Vec<u32>; 2],
    pub outside_device: OutsideDevice,
    outside_banks: [Vec<u32>; 2],
    /// The index of the bank that runs at the start, and what both banks must come to.
    old: usize,
    old_words: Vec<u32>,
    pub new_words: Vec<u32>,
    pub turns: u64,
}

pub fn device(outside: &OutsideDevice) -> Device {
    let register = |number: usize| outside.registers[number];
    Device {
        nvmcon: register(0),
        nvmkey: register(1),
        nvmaddr: register(2),
        nvmdata: [register(3), register(4), register(5), register(6)],
        nvmsrcaddr: register(7),
        nvmpwp: register(8),
        nvmbwp: register(9),
        nvmcon2: register(10),
        keystep: outside.key_step,
        step: outside.step_number,
        launched: Operands {
            nvmaddr: outside.launched.address,
            nvmdata: outside.launched.data,
            nvmsrcaddr: outside.launched.source,
        },
    }
}

/// What both give; where they decline, by the same number.
fn agree<M, A>(
    expected: model::Answer<M>,
    given: Result<A, Decline>,
    stage: &str,
) -> Result<(M, A), Decline> {
    match (expected, given) {
        (Ok(expected), Ok(given)) => Ok((expected, given)),
        (Err(refusal), Err(decline)) => {
            assert_eq!(refusal.number(), decline.number(), "{stage}");
            Err(decline)
        }
        _ => panic!("{stage}: one is declined, the other is not"),
    }
}

fn index(bank: Option<Bank>) -> usize {
    let bank = bank.expect("BFSWAP and PFSWAP put the same bank lower");
    bank.number() as usize - 1
}

impl Sign {
    pub fn new(numbers: [u32; 3], start: Start) -> Sign {
        let [q, b, p] = numbers;
        let geometry = Geometry { q, b, p };
        let sequence = geometry.sequence_index().expect("a sequence word");
        let old = index(device(&start.device).running_bank());
        let old_words = start.banks[old].clone();
        let mut new_words = start.image.clone();
        let low = old_words[sequence] as u16;
        new_words[sequence..sequence + 4].copy_from_slice(&new_quad(low));
        Sign {
            numbers,
            geometry,
            image: start.image,
            device: device(&start.device),
            banks: start.banks.clone(),
            outside_device: start.device,
            outside_banks: start.banks,
            old,
            old_words,
            new_words,
            turns: 0,
        }
    }

    /// Device and banks are those of the model.
    fn compare(&self, stage: &str) {
        assert_eq!(self.device, device(&self.outside_device), "{stage}");
        assert!(self.banks == self.outside_banks, "{stage}: the banks");
    }

    pub fn start(&self) -> u32 {
        let [one, two] = &self.banks;
        let started = update_start(self.geometry, self.device, one, two, &self.image);
        let [mut one, mut two] = self.outside_banks.clone();
        let banks = Banks {
            one: &mut one,
            two: &mut two,
        };
        let expected =
            update::update_start(self.numbers, &self.outside_device, &banks, &self.image);
        let (place, total) = expected.expect("the model accepts the update");
        assert_eq!(started, Ok(Started { place, total }), "update start");
        total
    }

    /// One turn, with the device lent at even places; the place after it, none where done.
    pub fn turn(&mut self, sram: &[u32], place: u32) -> Option<u32> {
        let [one, two] = &mut self.outside_banks;
        let mut banks = Banks { one, two };
        let (numbers, before) = (self.numbers, self.outside_device);
        let expected = update::turn(numbers, before, &mut banks, &self.image, sram, place)
            .expect("the model takes the turn");
        self.outside_device = expected.device;
        let (sign, image) = (self.geometry, &self.image[..]);
        let [one, two] = &mut self.banks;
        let outcome = if place.is_multiple_of(2) {
            turn_lent(sign, &mut self.device, one, two, image, sram, place)
        } else {
            turn(sign, self.device, one, two, image, sram, place).map(|turned| {
                self.device = turned.device;
                turned.outcome
            })
        };
        let outcome = outcome.expect("the archive takes the turn");
        let (place, done, event) = (expected.place, expected.done, expected.event);
        assert_eq!(outcome, TurnOutcome { place, done, event });
        assert_eq!(self.device, device(&self.outside_device), "place {place}");
        self.turns += 1;
        (!done).then_some(place)
    }

    /// One turn, which may be declined; the answers agree.
    pub fn try_turn(&mut self, sram: &[u32], place: u32) -> Result<u32, Decline> {
        let (image, sign) = (&self.image, self.geometry);
        let [one, two] = &mut self.outside_banks;
        let mut banks = Banks { one, two };
        let (numbers, before) = (self.numbers, self.outside_device);
        let expected = update::turn(numbers, before, &mut banks, image, sram, place);
        let [one, two] = &mut self.banks;
        let turned = turn(sign, self.device, one, two, image, sram, place);
        let (expected, turned) = agree(expected, turned, "turn")?;
        (self.outside_device, self.device) = (expected.device, turned.device);
        self.turns += 1;
        self.compare(&format!("place {place}"));
        Ok(turned.outcome.place)
    }

    /// A register read; the values agree.
    pub fn read(&mut self, register: u32) {
        let (numbers, before) = (self.numbers, self.outside_device);
        let (value, after) = store::register_read(numbers, before, register)
            .expect("the model takes the register read");
        self.outside_device = after;
        let read = register_read(self.geometry, self.device, register)
            .expect("the archive takes the register read");
        self.device = read.device;
        assert_eq!(read.value, value);
        self.compare("register read");
    }

    /// A flash read that is not declined; true where it waited.
    pub fn read_flash(&mut self, sram: &[u32], address: u32) -> bool {
        let waited = self.try_read_flash(sram, address);
        waited.expect("both take the flash read")
    }

    /// A flash read, which may be declined; the words and events agree. True where it waited.
    pub fn try_read_flash(&mut self, sram: &[u32], address: u32) -> Result<bool, Decline> {
        let [one, two] = &mut self.outside_banks;
        let mut banks = Banks { one, two };
        let (numbers, before) = (self.numbers, self.outside_device);
        let expected = flash::flash_read(numbers, before, &mut banks, sram, address);
        let [one, two] = &mut self.banks;
        let read = flash_read(self.geometry, self.device, one, two, sram, address);
        let (expected, read) = agree(expected, read, "flash read")?;
        (self.outside_device, self.device) = (expected.device, read.device);
        assert_eq!((read.word, read.event), (expected.word, expected.event));
        self.compare(&format!("flash read of {address:08X}"));
        Ok(read.event)
    }

    /// One step, as those inside a read that the supply cuts; the answers agree.
    pub fn try_step(&mut self, sram: &[u32]) -> Result<(), Decline> {
        let [one, two] = &mut self.outside_banks;
        let mut banks = Banks { one, two };
        let (numbers, before) = (self.numbers, self.outside_device);
        let expected = flash::step(numbers, before, &mut banks, sram);
        let [one, two] = &mut self.banks;
        let stepped = step(self.geometry, self.device, one, two, sram);
        let ((after, event), stepped) = agree(expected, stepped, "step")?;
        (self.outside_device, self.device) = (after, stepped.device);
        assert_eq!(stepped.event, event);
        self.compare("step");
        Ok(())
    }

    /// Turns from place 0 up to a place, and where asked on until an operation runs.
    pub fn run(&mut self, sram: &[u32], last: u32, into_step: bool) -> u32 {
        let mut place = 0;
        while place < last || into_step && !self.device.operation_runs() {
            match self.turn(sram, place) {
                Some(next) => place = next,
                None => break,
            }
        }
        self.compare(&format!("turns up to {place}"));
        place
    }

    /// A reset and a start-up; the index of the bank that runs.
    pub fn restart(&mut self, sram: &[u32], kind: u32, mask: [u32; 4]) -> usize {
        let restarted = self.try_reset(sram, kind, mask);
        restarted.expect("both take the reset");
        self.try_start_up().expect("both take the start-up");
        self.runs()
    }

    /// A reset, which may be declined; the answers and reasons agree.
    pub fn try_reset(&mut self, sram: &[u32], kind: u32, mask: [u32; 4]) -> Result<(), Decline> {
        let [one, two] = &mut self.outside_banks;
        let mut banks = Banks { one, two };
        let (numbers, before) = (self.numbers, self.outside_device);
        let expected = flash::reset(numbers, before, &mut banks, sram, kind, mask);
        let [one, two] = &mut self.banks;
        let restarted = reset(self.geometry, self.device, one, two, sram, kind, mask);
        let (expected, restarted) = agree(expected, restarted, "reset")?;
        (self.outside_device, self.device) = (expected.device, restarted.device);
        assert_eq!(restarted.reason.number(), expected.reason.number());
        self.compare(&format!("reset of kind {kind} with the mask {mask:X?}"));
        Ok(())
    }

    /// A completed start-up, which may be declined; the answers agree.
    pub fn try_start_up(&mut self) -> Result<(), Decline> {
        let expected = store::start_up(self.numbers, self.outside_device);
        let started = start_up(self.geometry, self.device);
        (self.outside_device, self.device) = agree(expected, started, "start-up")?;
        self.compare("start-up");
        Ok(())
    }

    /// The first stores of a start-up, which may be declined; the answers agree.
    pub fn try_cut_start_up(&mut self, stores: u32) -> Result<(), Decline> {
        let expected = store::cut_start_up(self.numbers, self.outside_device, stores);
        let started = cut_start_up(self.geometry, self.device, stores as usize);
        (self.outside_device, self.device) = agree(expected, started, "cut start-up")?;
        self.compare(&format!("start-up cut after {stores} stores"));
        Ok(())
    }

    /// The index of the bank that runs.
    pub fn runs(&self) -> usize {
        index(self.device.running_bank())
    }

    /// "the old bank, whole, or exactly the new one": true where the new one runs.
    pub fn runs_new(&self, runs: usize) -> bool {
        let whole = self.banks[self.old] == self.old_words;
        assert!(whole, "the old bank is not whole");
        if runs != self.old {
            let exact = self.banks[runs] == self.new_words;
            assert!(exact, "it runs what is not exactly the new bank");
        }
        runs != self.old
    }
}
