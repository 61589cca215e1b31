//! One supply, many signs: one turn for one sign of a row, with few flash operations together.

use crate::device::Device;
use crate::geometry::{check_sram, Banks, Geometry};
use crate::update::{turn, Turn};
use crate::{Answer, Refusal};

/// "a list of sign records, 1 to 32", and "K, 1 to 32".
pub const MOST_SIGNS: usize = 32;

/// A sign record: "its device, its place in the update and the start of each of its two banks in one lent store".
#[derive(Clone, Copy, Debug, PartialEq, Eq)]
pub struct Sign {
    pub device: Device,
    pub place: u32,
    /// In words.
    pub starts: [u32; 2],
}

/// "Beside the list stand a queue of the waiting record numbers .. and the record last served".
#[derive(Clone, Debug, Default, PartialEq, Eq)]
pub struct Row {
    pub signs: Vec<Sign>,
    pub queue: Vec<u32>,
    pub last: u32,
}

/// "one geometry for all", "One image and one SRAM serve all."
#[derive(Clone, Copy)]
pub struct Common<'a> {
    pub numbers: [u32; 3],
    pub image: &'a [u32],
    pub sram: &'a [u32],
}

/// The record that a call served, and whether its turn gave an event.
#[derive(Clone, Copy, Debug, PartialEq, Eq)]
pub struct Served {
    pub record: u32,
    pub event: bool,
}

/// What a turn would leave: of the record, and of the words of its banks.
struct Trial {
    turn: Turn,
    banks: [Vec<u32>; 2],
}

/// "A call does one turn for one sign." `most` is K. "With nobody to serve the call says idle": none.
pub fn schedule(
    common: &Common,
    most: u32,
    row: &mut Row,
    store: &mut [u32],
) -> Answer<Option<Served>> {
    let words = check(common, most, row, store)?;
    // "With fewer than K set and a waiting sign that isn't passed over"
    if row.running() < most as usize {
        if let Some(served) = serve_waiting(common, row, store, words) {
            return Ok(Some(served));
        }
    }
    Ok(serve_round(common, most, row, store, words))
}

/// "it serves the longest waiting, the first of these in the queue, which then leaves it".
fn serve_waiting(
    common: &Common,
    row: &mut Row,
    store: &mut [u32],
    words: usize,
) -> Option<Served> {
    for (position, record) in row.queue.clone().into_iter().enumerate() {
        if let Some(trial) = row.try_turn(common, record, store, words) {
            row.queue.remove(position);
            return Some(row.serve(record, trial, store));
        }
    }
    None
}

/// "Else it serves the first after the last served, round the list, that is unfinished and not waiting."
fn serve_round(
    common: &Common,
    most: u32,
    row: &mut Row,
    store: &mut [u32],
    words: usize,
) -> Option<Served> {
    let full = row.running() >= most as usize;
    let (mut begin, mut served) = (Vec::new(), None);
    for record in row.round() {
        if row.queue.contains(&record) {
            continue;
        }
        let Some(trial) = row.try_turn(common, record, store, words) else {
            continue;
        };
        // "A sign met there whose turn would set WR while K or more are set begins to wait, and the search goes on."
        let sets = trial.turn.device.running() && !row.sign(record).device.running();
        if sets && full {
            begin.push(record);
            continue;
        }
        served = Some(row.serve(record, trial, store));
        break;
    }
    // "those of one call in record order"
    begin.sort_unstable();
    row.queue.extend(begin);
    served
}

impl Row {
    pub fn sign(&self, record: u32) -> &Sign {
        &self.signs[record as usize]
    }

    /// "the number of signs with WR set", whatever else their records hold.
    pub fn running(&self) -> usize {
        let running = |sign: &&Sign| sign.device.running();
        self.signs.iter().filter(running).count()
    }

    /// The records after the last served, round the list; itself is the last of them.
    fn round(&self) -> impl Iterator<Item = u32> {
        let count = self.signs.len() as u32;
        (self.last + 1..count).chain(0..=self.last)
    }

    /// None for a sign that is passed over: "A record whose turn 01 declines is passed over like a finished one."
    fn try_turn(&self, common: &Common, record: u32, store: &[u32], words: usize) -> Option<Trial> {
        let sign = self.sign(record);
        let mut banks = sign.starts.map(|start| {
            let first = start as usize;
            store[first..first + words].to_vec()
        });
        let [one, two] = &mut banks;
        let mut lent = Banks { one, two };
        let (numbers, image, sram) = (common.numbers, common.image, common.sram);
        let turn = turn(numbers, sign.device, &mut lent, image, sram, sign.place).ok()?;
        (!turn.done).then_some(Trial { turn, banks })
    }

    /// "A turn for one sign changes no word or record of another, except who waits and who was last served."
    fn serve(&mut self, record: u32, trial: Trial, store: &mut [u32]) -> Served {
        let sign = &mut self.signs[record as usize];
        (sign.device, sign.place) = (trial.turn.device, trial.turn.place);
        for (start, words) in sign.starts.iter().zip(trial.banks) {
            let first = *start as usize;
            store[first..first + words.len()].copy_from_slice(&words);
        }
        self.last = record;
        let event = trial.turn.event;
        Served { record, event }
    }
}

/// "19, after 1 and 2"; gives the words of a bank.
fn check(common: &Common, most: u32, row: &Row, store: &[u32]) -> Answer<usize> {
    let geometry = Geometry::new(common.numbers)?;
    geometry.check_bank(common.image)?;
    check_sram(common.sram)?;
    let words = geometry.bank_words();
    let fits = in_range(most, row) && sound_queue(row) && apart(row, words, store.len());
    if !fits {
        return Err(Refusal::Row);
    }
    Ok(words as usize)
}

/// "a list length, K or last served out of range".
fn in_range(most: u32, row: &Row) -> bool {
    let range = 1..=MOST_SIGNS;
    range.contains(&row.signs.len())
        && range.contains(&(most as usize))
        && (row.last as usize) < row.signs.len()
}

/// "a queue that repeats a record or oversteps the list".
fn sound_queue(row: &Row) -> bool {
    let queue = &row.queue;
    (0..queue.len()).all(|position| {
        let record = queue[position];
        (record as usize) < row.signs.len() && !queue[..position].contains(&record)
    })
}

/// Not "overlapping or overhanging banks"; the banks of one sign don't overlap either.
fn apart(row: &Row, words: u32, store: usize) -> bool {
    let banks = row.signs.iter().flat_map(|sign| sign.starts);
    let banks: Vec<(u64, u64)> = banks
        .map(|start| (u64::from(start), u64::from(start) + u64::from(words)))
        .collect();
    (0..banks.len()).all(|number| {
        let (first, end) = banks[number];
        let apart = |(start, past): &(u64, u64)| end <= *start || *past <= first;
        end <= store as u64 && banks[..number].iter().all(apart)
    })
}
