//! A sign that is updated, or that a script is played on.

use std::ops::Deref;

use yohrundel::reset_kind::POWER_ON;
use yohrundel::{start_up_stores, Bank, Decline, Device, Geometry, Reason};

use crate::progress::Progress;

/// The made-up firmwares: the one that bank 2 still holds, the one that bank 1 runs, and the image. The first two have these T.
const OLDER: u16 = 1;
const OLD: u16 = 2;
const IMAGE: u16 = 3;

pub struct Sign {
    now: yohrundel::Sign,
    /// Why the last reset put a bank lower; none before the first.
    pub reason: Option<Reason>,
    /// The sign before the update or the play.
    old: yohrundel::Sign,
    /// The bank that runs before the update.
    runs_before: Bank,
    /// The image with the new sequence quad.
    pub new: Vec<u32>,
    /// The image of the update.
    pub image: Vec<u32>,
    /// The furthest place that an update came to, in this try or one before.
    pub reached: u32,
}

/// What is asked of the sign as it is now.
impl Deref for Sign {
    type Target = yohrundel::Sign;

    fn deref(&self) -> &yohrundel::Sign {
        &self.now
    }
}

impl Sign {
    /// A sign after power-on and start-up: bank 1 runs with T = 2, bank 2 holds an older firmware with T = 1. The image is one bank long.
    pub fn fresh(geometry: Geometry, image: Vec<u32>) -> Result<Sign, Decline> {
        let bank = |number| with_quad(geometry, &made_up(geometry, number)?, sequence_quad(number));
        Sign::started(geometry, [bank(OLD)?, bank(OLDER)?], image)
    }

    /// A sign with given banks after power-on and start-up. They and the image are one bank long.
    pub fn started(
        geometry: Geometry,
        banks: [Vec<u32>; 2],
        image: Vec<u32>,
    ) -> Result<Sign, Decline> {
        let mut sign = Sign::powered(geometry, banks, image);
        sign.restart(POWER_ON, [0; 4])?;
        sign.runs_before = sign.device.running_bank().unwrap_or(Bank::One);
        let next = sign.sequence_number()?.wrapping_add(1);
        sign.new = with_quad(geometry, &sign.image, sequence_quad(next))?;
        Ok(sign)
    }

    /// The bench of the service scripts: "all ones but bank 1's sequence word 0xFFFE0001", and no start-up. It has no image,
    /// and a blank one stands for it.
    pub fn bench() -> Result<Sign, Decline> {
        let geometry = Geometry { q: 1, b: 1, p: 1 };
        let blank = vec![!0; geometry.bank_words()?];
        let one = with_quad(geometry, &blank, sequence_quad(1))?;
        let banks = [one, blank.clone()];
        Ok(Sign::powered(geometry, banks, blank))
    }

    /// A sign after power-on, before any reset compares its banks.
    fn powered(geometry: Geometry, banks: [Vec<u32>; 2], image: Vec<u32>) -> Sign {
        let now = yohrundel::Sign::power_on(geometry, banks);
        Sign {
            reason: None,
            runs_before: Bank::One,
            old: now.clone(),
            now,
            new: image.clone(),
            image,
            reached: 0,
        }
    }

    /// T of the bank on the lower alias.
    pub fn sequence_number(&self) -> Result<u16, Decline> {
        Ok(self.lower_bank()?[self.geometry.sequence_index()?] as u16)
    }

    /// The bank that runs before the update, and the one that it writes.
    pub fn old_and_new(&self) -> [Bank; 2] {
        match self.runs_before {
            Bank::One => [Bank::One, Bank::Two],
            Bank::Two => [Bank::Two, Bank::One],
        }
    }

    /// The sequence quad that the update writes.
    pub fn new_quad(&self) -> Result<&[u32], Decline> {
        let first = self.geometry.sequence_index()?;
        Ok(&self.new[first..first + 4])
    }

    /// The record, for registers that are set from outside.
    pub fn device_mut(&mut self) -> &mut Device {
        &mut self.now.device
    }

    /// A bank as it was before the update or the play.
    pub fn old_bank(&self, bank: Bank) -> &[u32] {
        self.old.bank(bank)
    }

    /// An update, or a read that did its steps, came to a place.
    pub fn note_place(&mut self, place: u32) {
        self.reached = self.reached.max(place);
    }

    /// A reset and a start-up.
    pub fn restart(&mut self, kind: u32, mask: [u32; 4]) -> Result<(), Decline> {
        self.reset(kind, mask)?;
        self.start_up()
    }

    pub fn reset(&mut self, kind: u32, mask: [u32; 4]) -> Result<(), Decline> {
        self.reason = Some(self.now.reset(&[], kind, mask)?);
        Ok(())
    }

    pub fn start_up(&mut self) -> Result<(), Decline> {
        self.now.start_up()
    }

    /// The first stores of a start-up, all where it has fewer; gives how many are done, and how many it has.
    pub fn cut_start_up(&mut self, stores: usize) -> Result<(usize, usize), Decline> {
        let all = start_up_stores(&self.device).len();
        self.now.cut_start_up(stores)?;
        Ok((stores.min(all), all))
    }

    /// A flash read without SRAM; gives the word, and for how many steps the read waited, none where it did not.
    pub fn read(&mut self, address: u32) -> Result<(u32, Option<u32>), Decline> {
        let steps = self.steps_left()?;
        let read = self.now.flash_read(&[], address)?;
        Ok((read.word, read.event.then_some(steps)))
    }

    /// The steps up to the end of the running operation, counted on a copy of the sign.
    fn steps_left(&self) -> Result<u32, Decline> {
        let (mut copy, mut steps) = (self.now.clone(), 0);
        while copy.device.operation_runs() {
            copy.step(&[])?;
            steps += 1;
        }
        Ok(steps)
    }

    /// The bytes that the play of a script would print.
    pub fn play_length(&self, script: &[u8]) -> Result<usize, Decline> {
        self.now.play_length(&[], script)
    }

    /// Plays a script without SRAM; gives what is printed.
    pub fn play(&mut self, script: &[u8]) -> Result<Vec<u8>, Decline> {
        self.now.play(&[], script)
    }

    /// The smallest script that shows a number, of a script that is played without SRAM. It changes nothing of the sign.
    pub fn smallest(&self, script: &[u8], number: u32) -> Result<Vec<u8>, Decline> {
        self.now.smallest(&[], script, number)
    }

    /// The total of the update's actions, where it is accepted.
    pub fn start(&self) -> Result<u32, Decline> {
        Ok(self.now.update_start(&self.image)?.total)
    }

    /// The update as a service script. It carries nothing out.
    pub fn script(&self) -> Result<Vec<u8>, Decline> {
        self.now.write_script(&self.image)
    }

    /// Turns from place 0 up to a place, which is at most the total.
    pub fn turn_until(&mut self, last: u32, progress: &mut Progress) -> Result<(), Decline> {
        let mut place = 0;
        while place < last {
            place = self.now.turn(&self.image, &[], place)?.place;
            self.note_place(place);
            progress.show(place, last);
        }
        Ok(())
    }

    /// Turns from place 0 until one says done; gives how many came before it.
    pub fn turn_until_done(&mut self, total: u32, progress: &mut Progress) -> Result<u32, Decline> {
        let (mut place, mut turns) = (0, 0);
        loop {
            let outcome = self.now.turn(&self.image, &[], place)?;
            if outcome.done {
                return Ok(turns);
            }
            (place, turns) = (outcome.place, turns + 1);
            self.note_place(place);
            progress.show(place, total);
        }
    }
}

/// Made-up words of a bank, none of them blank: the number in the high byte, the word's index below it.
fn made_up(geometry: Geometry, number: u16) -> Result<Vec<u32>, Decline> {
    let (words, front) = (geometry.bank_words()? as u32, u32::from(number) << 24);
    Ok((0..words).map(|index| front + index).collect())
}

/// An image where no file gives one.
pub fn made_up_image(geometry: Geometry) -> Result<Vec<u32>, Decline> {
    made_up(geometry, IMAGE)
}

/// The quad of a sequence number: T, its complement above it, and three words of all ones.
const fn sequence_quad(number: u16) -> [u32; 4] {
    [(!number as u32) << 16 | number as u32, !0, !0, !0]
}

/// A bank with another sequence quad.
fn with_quad(geometry: Geometry, bank: &[u32], quad: [u32; 4]) -> Result<Vec<u32>, Decline> {
    let first = geometry.sequence_index()?;
    let mut words = bank.to_vec();
    words[first..first + 4].copy_from_slice(&quad);
    Ok(words)
}
