//! The smallest script that shows a number.

use super::requests::byte_changes;
use super::{changes, Case};
use crate::geometry::Banks;
use crate::smallest::{smallest, Bench};
use crate::{Answer, Refusal};

impl Case {
    /// "0 records X C; or 21 C; or ans. X is of the result, C of the scratch banks". The lists are the banks, the SRAM, the scratch banks,
    /// the script and the result.
    pub(super) fn answer_smallest(&self) -> Vec<u32> {
        let before = [self.lists[3].words(), self.lists[4].words()];
        let (mut scratch, held) = (before.clone(), self.lists[6].bytes());
        let mut result = held.clone();
        let answer = self.reduce(&mut scratch, &mut result);
        let in_banks = changes(&before, &scratch);
        match answer {
            Ok(records) => [vec![0, records], byte_changes(&held, &result), in_banks].concat(),
            Err(Refusal::NotShown) => [vec![Refusal::NotShown.number()], in_banks].concat(),
            Err(refusal) => vec![refusal.number()],
        }
    }

    fn reduce(&self, scratch: &mut [Vec<u32>; 2], result: &mut [u8]) -> Answer<u32> {
        let [one, two, sram] = [0, 1, 2].map(|list| self.lists[list].words());
        let bench = Bench {
            numbers: self.geometry,
            device: self.device,
            banks: [&one, &two],
            sram: &sram,
        };
        let [one, two] = scratch;
        let (mut scratch, script) = (Banks { one, two }, self.lists[5].bytes());
        smallest(&bench, &mut scratch, &script, self.numbers[0], result)
    }
}
