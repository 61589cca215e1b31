//! A row of signs on one supply: cases of a call, and of a list of calls.

use yohrundel::*;

use crate::answers::{changes, device_numbers, join};
use crate::inputs::Inputs;
use crate::lent::Lent;

/// What a case hands over.
#[derive(Clone)]
pub struct Row {
    pub geometry: Geometry,
    pub signs: Vec<SignRecord>,
    pub standing: Standing,
    /// A queue of more numbers than the call is handed, which declines it; else none.
    pub overlong: Vec<u32>,
    pub store: Vec<u32>,
    pub image: Vec<u32>,
    pub sram: Vec<u32>,
}

/// A record that no sign has.
fn margin() -> SignRecord {
    SignRecord {
        device: Device::power_on(),
        place: 0x5A5A_5A5A,
        one: 0x5A5A_5A5A,
        two: 0x5A5A_5A5A,
    }
}

impl Row {
    /// The row of a line from its last served on.
    pub fn new(geometry: Geometry, inputs: &mut Inputs) -> Row {
        let last = inputs.number();
        let mut overlong: Vec<u32> = (0..inputs.number()).map(|_| inputs.number()).collect();
        let queue = Queue::of(&overlong);
        if overlong.len() <= MOST_SIGNS {
            overlong.clear();
        }
        let count = inputs.number();
        let sign = |_| SignRecord {
            device: inputs.device(),
            place: inputs.number(),
            one: inputs.number(),
            two: inputs.number(),
        };
        Row {
            geometry,
            signs: (0..count).map(sign).collect(),
            standing: Standing { queue, last },
            overlong,
            store: inputs.list(),
            image: inputs.list(),
            sram: inputs.list(),
        }
    }

    /// A call on lent memory with more of it beside; a declined one must change nothing.
    pub fn call(&mut self, k: u32) -> Result<Option<Served>, Decline> {
        let mut signs = Lent::new(&self.signs, margin());
        let mut store = Lent::new(&self.store, 0x5A5A_5A5A);
        let before = self.standing;
        let supply = Supply {
            geometry: self.geometry,
            k,
            image: &self.image,
            sram: &self.sram,
        };
        let answer = schedule(supply, signs.lend(), &mut self.standing, store.lend());
        assert!(signs.margin_kept() && store.margin_kept());
        if answer.is_err() {
            assert_eq!(before, self.standing);
            assert!(signs.after() == self.signs && store.after() == self.store);
        }
        self.signs = signs.after().to_vec();
        self.store = store.after().to_vec();
        answer
    }

    /// How many operations run.
    pub fn running(&self) -> usize {
        let running = |sign: &&SignRecord| sign.device.operation_runs();
        self.signs.iter().filter(running).count()
    }

    /// "nq queue last".
    fn put_standing(&self, numbers: &mut Vec<u64>) {
        let queue = self.standing.queue;
        let (mut waiting, rest) = queue.numbers.split_at(queue.waiting().len());
        if !self.overlong.is_empty() {
            assert!(self.overlong.starts_with(waiting));
            waiting = &self.overlong;
        }
        assert!(rest.iter().all(|number| *number == 0));
        numbers.push(queue.count.into());
        numbers.extend(waiting.iter().map(|record| u64::from(*record)));
        numbers.push(self.standing.last.into());
    }
}

/// "D place".
fn put_sign(sign: &SignRecord, numbers: &mut Vec<u64>) {
    numbers.extend(device_numbers(&sign.device));
    numbers.push(sign.place.into());
}

/// Z: "n, then n pairs of index and new word".
fn put_changes(before: &[u32], after: &[u32], numbers: &mut Vec<u64>) {
    let (count, changed) = changes(&[], before, after);
    numbers.push(count);
    numbers.extend(changed);
}

/// "ans [idle served event nq queue last D place Z]".
pub fn schedule_case(inputs: &mut Inputs) -> String {
    let (geometry, k) = (inputs.geometry(), inputs.number());
    let mut row = Row::new(geometry, inputs);
    let before = row.store.clone();
    let served = match row.call(k) {
        Ok(served) => served,
        Err(decline) => return decline.number().to_string(),
    };
    let mut numbers = match served {
        None => vec![0, 1, 0, 0],
        Some(served) => vec![0, 0, served.record.into(), served.event.into()],
    };
    row.put_standing(&mut numbers);
    if let Some(served) = served {
        put_sign(&row.signs[served.record as usize], &mut numbers);
    }
    put_changes(&before, &row.store, &mut numbers);
    join(&numbers)
}

/// "for each K one schedule call: ans idle served (0 0 after a refusal); then nq, queue, last, nr times D and place, Z".
pub fn row_run_case(inputs: &mut Inputs) -> String {
    let geometry = inputs.geometry();
    let mut row = Row::new(geometry, inputs);
    let (before, mut numbers) = (row.store.clone(), Vec::new());
    for _ in 0..inputs.number() {
        numbers.extend(match row.call(inputs.number()) {
            Ok(None) => [0, 1, 0],
            Ok(Some(served)) => [0, 0, served.record.into()],
            Err(decline) => [decline.number().into(), 0, 0],
        });
    }
    row.put_standing(&mut numbers);
    for sign in &row.signs {
        put_sign(sign, &mut numbers);
    }
    put_changes(&before, &row.store, &mut numbers);
    join(&numbers)
}
