//! The smallest script that shows a decline number.

use crate::device::{check_device, Device};
use crate::geometry::{check_sram, Banks, Geometry};
use crate::script::{play_record, records, Record};
use crate::{Answer, Refusal};

/// "a script of at most 64 records".
pub const MOST_RECORDS: usize = 64;

/// What a script is played on. "originals never change".
#[derive(Clone, Copy)]
pub struct Bench<'a> {
    pub numbers: [u32; 3],
    pub device: Device,
    /// Both original banks.
    pub banks: [&'a [u32]; 2],
    pub sram: &'a [u32],
}

/// "Given a script of at most 64 records and a decline number"; gives the number of records of the result.
pub fn smallest(
    bench: &Bench,
    scratch: &mut Banks,
    script: &[u8],
    number: u32,
    result: &mut [u8],
) -> Answer<u32> {
    bench.check(scratch, script, result)?;
    let records = records(script)?;
    // Decline 20: "after 14, more than 64 records"
    if records.len() > MOST_RECORDS {
        return Err(Refusal::Records);
    }
    // "Afterwards the scratch banks hold the originals' contents, also where 21 is given"
    scratch.one.copy_from_slice(bench.banks[0]);
    scratch.two.copy_from_slice(bench.banks[1]);
    // Decline 21: "after it, the play never gives the number"
    if !bench.shows(&records, number) {
        return Err(Refusal::NotShown);
    }
    let left = bench.reduced(records, number);
    // "The result goes into a lent buffer of the script's length, the rest zeros"
    result.fill(0);
    for (record, bytes) in left.iter().zip(result.chunks_exact_mut(8)) {
        bytes.copy_from_slice(&record.bytes());
    }
    Ok(left.len() as u32)
}

impl Bench<'_> {
    /// Declines 1, 2 and 3. "Scratch banks or a result buffer of another length are declined as 2."
    fn check(&self, scratch: &Banks, script: &[u8], result: &[u8]) -> Answer<()> {
        let geometry = Geometry::new(self.numbers)?;
        for bank in self.banks {
            geometry.check_bank(bank)?;
        }
        scratch.check(&geometry)?;
        check_sram(self.sram)?;
        if result.len() != script.len() {
            return Err(Refusal::Length);
        }
        check_device(&geometry, &self.device)
    }

    /// "drop the lowest record whose removal still leaves that number among the answers of the play, begin again from the top, and stop
    /// when none can go".
    fn reduced(&self, mut records: Vec<Record>, number: u32) -> Vec<Record> {
        let can_go = |records: &[Record], index: usize| {
            let rest = [&records[..index], &records[index + 1..]].concat();
            self.shows(&rest, number)
        };
        while let Some(lowest) = (0..records.len()).find(|index| can_go(&records, *index)) {
            records.remove(lowest);
        }
        records
    }

    /// "Number 0 counts as never given."
    pub fn shows(&self, records: &[Record], number: u32) -> bool {
        number != 0 && self.answers(records).contains(&number)
    }

    /// The answers of a play, each 0 or a decline's number. The banks are copies.
    pub fn answers(&self, records: &[Record]) -> Vec<u32> {
        let [mut one, mut two] = self.banks.map(<[u32]>::to_vec);
        let mut banks = Banks {
            one: &mut one,
            two: &mut two,
        };
        let mut device = self.device;
        let answer = |record| match play_record(self.numbers, device, &mut banks, self.sram, record)
        {
            Ok((after, _)) => {
                device = after;
                0
            }
            Err(refusal) => refusal.number(),
        };
        records.iter().map(answer).collect()
    }
}
