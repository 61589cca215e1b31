//! A row of signs on one supply: a call, and a list of calls.

use super::{put_device, take_counted, take_device, Case};
use crate::schedule::{schedule, Common, Row, Served, Sign};
use crate::Answer;

/// "last nq, queue, nr, nr R".
pub fn take_row(numbers: &mut impl Iterator<Item = u32>) -> Option<Row> {
    let last = numbers.next()?;
    let queue = take_counted(numbers)?;
    let count = numbers.next()?;
    let signs: Option<Vec<Sign>> = (0..count).map(|_| take_sign(numbers)).collect();
    Some(Row {
        signs: signs?,
        queue,
        last,
    })
}

/// "D, place, the starts of bank 1 and bank 2 in the lent store (in words)".
fn take_sign(numbers: &mut impl Iterator<Item = u32>) -> Option<Sign> {
    Some(Sign {
        device: take_device(numbers)?,
        place: numbers.next()?,
        starts: [numbers.next()?, numbers.next()?],
    })
}

pub fn put_row(row: &Row, numbers: &mut Vec<u32>) {
    numbers.push(row.last);
    put_counted(&row.queue, numbers);
    numbers.push(row.signs.len() as u32);
    for sign in &row.signs {
        put_place(sign, numbers);
        numbers.extend(sign.starts);
    }
}

/// The count, then the numbers.
pub fn put_counted(list: &[u32], numbers: &mut Vec<u32>) {
    numbers.push(list.len() as u32);
    numbers.extend(list);
}

/// "D and place".
fn put_place(sign: &Sign, numbers: &mut Vec<u32>) {
    put_device(&sign.device, numbers);
    numbers.push(sign.place);
}

/// "nq, queue, last".
fn put_waiting(row: &Row, numbers: &mut Vec<u32>) {
    put_counted(&row.queue, numbers);
    numbers.push(row.last);
}

/// The count of changed words, then index and new word of each.
fn put_changes(before: &[u32], after: &[u32], numbers: &mut Vec<u32>) {
    let words = before.iter().zip(after).enumerate();
    let changed: Vec<[u32; 2]> = words
        .filter(|(_, (old, new))| old != new)
        .map(|(index, (_, new))| [index as u32, *new])
        .collect();
    numbers.push(changed.len() as u32);
    numbers.extend(changed.concat());
}

/// What a case lends beside the row.
struct Lent {
    store: Vec<u32>,
    image: Vec<u32>,
    sram: Vec<u32>,
}

impl Case {
    /// The lists are the store, the image and the SRAM.
    fn lent(&self) -> Lent {
        let [store, image, sram] = [0, 1, 2].map(|list| self.lists[list].words());
        Lent { store, image, sram }
    }

    /// "idle served event nq queue last D place Z"; D and place are the served record's.
    pub(super) fn answer_schedule(&self) -> Answer<Vec<u32>> {
        let (mut row, mut lent) = (self.row.clone(), self.lent());
        let before = lent.store.clone();
        let served = self.call_row(self.numbers[0], &mut row, &mut lent)?;
        let mut outputs = match served {
            None => vec![1, 0, 0],
            Some(served) => vec![0, served.record, u32::from(served.event)],
        };
        put_waiting(&row, &mut outputs);
        if let Some(served) = served {
            put_place(row.sign(served.record), &mut outputs);
        }
        put_changes(&before, &lent.store, &mut outputs);
        Ok(outputs)
    }

    /// "for each K one schedule call: ans idle served (0 0 after a refusal); then nq, queue, last, nr times D and place, Z".
    pub(super) fn answer_row_run(&self) -> Vec<u32> {
        let (mut row, mut lent) = (self.row.clone(), self.lent());
        let before = lent.store.clone();
        let mut outputs = Vec::new();
        for most in &self.numbers[1..] {
            outputs.extend(match self.call_row(*most, &mut row, &mut lent) {
                Ok(None) => [0, 1, 0],
                Ok(Some(served)) => [0, 0, served.record],
                Err(refusal) => [refusal.number(), 0, 0],
            });
        }
        put_waiting(&row, &mut outputs);
        for sign in &row.signs {
            put_place(sign, &mut outputs);
        }
        put_changes(&before, &lent.store, &mut outputs);
        outputs
    }

    fn call_row(&self, most: u32, row: &mut Row, lent: &mut Lent) -> Answer<Option<Served>> {
        let common = Common {
            numbers: self.geometry,
            image: &lent.image,
            sram: &lent.sram,
        };
        schedule(&common, most, row, &mut lent.store)
    }
}
