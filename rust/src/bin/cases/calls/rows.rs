//! A row of signs on one supply: a call, and a list of calls.

use yohrundel::{Decline, Geometry, Queue, Served, SignRecord, Standing, Supply};

use super::Answer;
use crate::inputs::{Inputs, NoCase};
use crate::outputs::Outputs;

/// What the calls work on.
struct Row {
    geometry: Geometry,
    last: u32,
    /// The numbers of the line's queue, which may be more than the call is handed; after an accepted call, who waits.
    waiting: Vec<u32>,
    signs: Vec<SignRecord>,
    store: Vec<u32>,
    image: Vec<u32>,
    sram: Vec<u32>,
}

/// "ans [idle served event nq queue last D place Z]"; idle: "idle 1, served 0, event 0, no D and place".
pub fn schedule(inputs: &mut Inputs) -> Answer {
    let (geometry, k) = (inputs.geometry()?, inputs.number()?);
    let mut row = Row::take(geometry, inputs)?;
    let before = row.store.clone();
    let served = row.call(k)?;
    let outputs = match served {
        None => Outputs::accepted().number(1u32).number(0u32).number(0u32),
        Some(served) => Outputs::accepted()
            .number(0u32)
            .number(served.record)
            .number(served.event),
    };
    let mut outputs = row.standing(outputs);
    if let Some(served) = served {
        outputs = sign(outputs, &row.signs[served.record as usize]);
    }
    Ok(outputs.changes(&before, &row.store))
}

/// "for each K one schedule call: ans idle served (0 0 after a refusal); then nq, queue, last, nr times D and place, Z".
pub fn row_run(inputs: &mut Inputs) -> Answer {
    let geometry = inputs.geometry()?;
    let mut row = Row::take(geometry, inputs)?;
    let (before, mut outputs) = (row.store.clone(), Outputs::none());
    for k in inputs.numbers()? {
        let numbers = match row.call(k) {
            Ok(None) => [0, 1, 0],
            Ok(Some(served)) => [0, 0, served.record],
            Err(decline) => [decline.number(), 0, 0],
        };
        for number in numbers {
            outputs = outputs.number(number);
        }
    }
    outputs = row.standing(outputs);
    for record in &row.signs {
        outputs = sign(outputs, record);
    }
    Ok(outputs.changes(&before, &row.store))
}

/// "D place".
fn sign(outputs: Outputs, sign: &SignRecord) -> Outputs {
    outputs.device(&sign.device).number(sign.place)
}

/// R: "D, place, the starts of bank 1 and bank 2 in the lent store (in words)".
fn take_sign(inputs: &mut Inputs) -> Result<SignRecord, NoCase> {
    Ok(SignRecord {
        device: inputs.device()?,
        place: inputs.number()?,
        one: inputs.number()?,
        two: inputs.number()?,
    })
}

impl Row {
    /// "last nq, queue, nr, nr R, A (the store) I S".
    fn take(geometry: Geometry, inputs: &mut Inputs) -> Result<Row, NoCase> {
        let (last, waiting, count) = (inputs.number()?, inputs.numbers()?, inputs.number()?);
        let signs: Result<Vec<SignRecord>, NoCase> =
            (0..count).map(|_| take_sign(inputs)).collect();
        Ok(Row {
            geometry,
            last,
            waiting,
            signs: signs?,
            store: inputs.words()?,
            image: inputs.words()?,
            sram: inputs.words()?,
        })
    }

    fn call(&mut self, k: u32) -> Result<Option<Served>, Decline> {
        let supply = Supply {
            geometry: self.geometry,
            k,
            image: &self.image,
            sram: &self.sram,
        };
        let (queue, last) = (Queue::of(&self.waiting), self.last);
        let mut standing = Standing { queue, last };
        let (signs, store) = (&mut self.signs, &mut self.store);
        let served = yohrundel::schedule(supply, signs, &mut standing, store)?;
        self.waiting = standing.queue.waiting().to_vec();
        self.last = standing.last;
        Ok(served)
    }

    /// "nq queue last".
    fn standing(&self, mut outputs: Outputs) -> Outputs {
        outputs = outputs.count(self.waiting.len());
        for record in &self.waiting {
            outputs = outputs.number(*record);
        }
        outputs.number(self.last)
    }
}
