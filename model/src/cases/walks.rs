//! Lists of calls, each on what the one before left.

use super::{changes, put_device, Case};
use crate::flash::{flash_read, reset, step};
use crate::geometry::Banks;
use crate::store::{register_read, start_up, store};
use crate::Answer;

impl Case {
    /// "n times (ans value event), then D C".
    pub(super) fn answer_walk(&self) -> Vec<u32> {
        let mut walked = self.clone();
        let before = [self.lists[0].words(), self.lists[1].words()];
        let mut banks = before.clone();
        let sram = self.lists[2].words();
        let mut outputs = Vec::new();
        for (kind, numbers) in self.moves() {
            match walked.make_move(kind, numbers, &mut banks, &sram) {
                Ok((value, event)) => outputs.extend([0, value, u32::from(event)]),
                Err(refusal) => outputs.extend([refusal.number(), 0, 0]),
            }
        }
        put_device(&walked.device, &mut outputs);
        outputs.extend(changes(&before, &banks));
        outputs
    }

    /// Value and event of one move; the device and the banks are left as it leaves them.
    fn make_move(
        &mut self,
        kind: u32,
        numbers: &[u32],
        banks: &mut [Vec<u32>; 2],
        sram: &[u32],
    ) -> Answer<(u32, bool)> {
        let (geometry, device) = (self.geometry, self.device);
        let [one, two] = banks;
        let mut banks = Banks { one, two };
        let (after, value, event) = match kind {
            0 => {
                let (after, event) = store(geometry, device, numbers[0], numbers[1], numbers[2])?;
                (after, 0, event)
            }
            1 => {
                let (value, after) = register_read(geometry, device, numbers[0])?;
                (after, value, false)
            }
            2 => {
                let (after, event) = step(geometry, device, &mut banks, sram)?;
                (after, 0, event)
            }
            3 => {
                let mask = [numbers[1], numbers[2], numbers[3], numbers[4]];
                let after = reset(geometry, device, &mut banks, sram, numbers[0], mask)?;
                (after.device, after.reason.number(), false)
            }
            4 => (start_up(geometry, device)?, 0, false),
            _ => {
                let read = flash_read(geometry, device, &mut banks, sram, numbers[0])?;
                (read.device, read.word, read.event)
            }
        };
        self.device = after;
        Ok((value, event))
    }
}
