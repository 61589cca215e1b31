//! A row of equal signs on one supply.

use yohrundel::reset_kind::POWER_ON;
use yohrundel::{
    reset, schedule, start_up, Bank, Decline, Geometry, Served, SignRecord, Standing, Supply,
};

use crate::sign::Sign;
use crate::sign_pages::SignPages;

pub struct Row {
    /// The sign as each was before its update.
    sign: Sign,
    pub k: u32,
    pub signs: Vec<SignRecord>,
    pub standing: Standing,
    store: Vec<u32>,
    /// The actions of each update.
    pub total: u32,
}

impl Row {
    /// So many signs as the given one, whose update is accepted with a total, with the banks of each one after the other in the store.
    pub fn of(sign: Sign, total: u32, signs: u32, k: u32) -> Row {
        let words = sign.image.len() as u32;
        let record = |number: u32| SignRecord {
            device: sign.device,
            place: 0,
            one: 2 * number * words,
            two: (2 * number + 1) * words,
        };
        Row {
            signs: (0..signs).map(record).collect(),
            standing: Standing::fresh(signs as usize),
            store: sign.banks.concat().repeat(signs as usize),
            total,
            sign,
            k,
        }
    }

    /// The sizes of each sign.
    pub fn geometry(&self) -> Geometry {
        self.sign.geometry
    }

    /// The calls that do all actions of all updates.
    pub fn calls(&self) -> u32 {
        self.total * self.signs.len() as u32
    }

    /// One call without SRAM.
    pub fn call(&mut self) -> Result<Option<Served>, Decline> {
        let supply = Supply {
            geometry: self.sign.geometry,
            k: self.k,
            image: &self.sign.image,
            sram: &[],
        };
        let (signs, standing) = (&mut self.signs, &mut self.standing);
        schedule(supply, signs, standing, &mut self.store)
    }

    /// Whether an update did all its actions.
    pub fn is_done(&self, sign: &SignRecord) -> bool {
        sign.place == self.total
    }

    /// A power-on reset and a start-up of all signs.
    pub fn restart(&mut self) -> Result<(), Decline> {
        let (geometry, words) = (self.sign.geometry, self.sign.image.len());
        for sign in &mut self.signs {
            let own = &mut self.store[sign.one as usize..][..2 * words];
            let (one, two) = own.split_at_mut(words);
            let cut = reset(geometry, sign.device, one, two, &[], POWER_ON, [0; 4])?;
            sign.device = start_up(geometry, cut.device)?;
        }
        Ok(())
    }

    /// The bank of each sign that runs before its update, and the one that it writes.
    pub fn old_and_new(&self) -> [Bank; 2] {
        self.sign.old_and_new()
    }

    /// Whether the old bank of a sign kept every word, and the new one is the image with the new sequence quad.
    pub fn kept_and_exact(&self, sign: &SignRecord) -> (bool, bool) {
        let [old, new] = self.old_and_new();
        let kept = self.bank(sign, old) == self.sign.old_bank(old);
        (kept, self.bank(sign, new) == self.sign.new)
    }

    fn bank(&self, sign: &SignRecord, bank: Bank) -> &[u32] {
        self.banks(sign)[bank.number() as usize - 1]
    }

    /// Both banks of a sign.
    fn banks(&self, sign: &SignRecord) -> [&[u32]; 2] {
        let words = self.sign.image.len();
        [sign.one, sign.two].map(|start| &self.store[start as usize..][..words])
    }

    /// The pages of each sign.
    pub fn pages(&self) -> Result<Vec<SignPages>, Decline> {
        let pages = |sign: &SignRecord| {
            let (before, now) = (&self.sign, self.banks(sign));
            SignPages::at(before, sign.device, now, sign.place)
        };
        self.signs.iter().map(pages).collect()
    }

    /// The pages of a sign before its update.
    pub fn pages_before(&self) -> Result<SignPages, Decline> {
        SignPages::of(&self.sign)
    }
}
