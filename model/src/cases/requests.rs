//! The calls that later requests added.

use super::{Call, Case};
use crate::geometry::Banks;
use crate::lanes::{lanes_back, lanes_out};
use crate::plan::{plan, Window};
use crate::reach::{reach, Reach};
use crate::sheet::page_sheet;
use crate::write_script::write_script;
use crate::Answer;

impl Case {
    pub(super) fn answer_request(&self) -> Answer<Vec<u32>> {
        match self.call {
            Call::Plan => self.answer_plan(),
            Call::PageSheet | Call::WriteScript => self.answer_written(),
            Call::Reach => self.answer_reach(),
            Call::Schedule => self.answer_schedule(),
            _ => self.answer_lanes(),
        }
    }

    /// The numbers are the present minute, the duration, the count of windows, and the windows.
    fn answer_plan(&self) -> Answer<Vec<u32>> {
        let pairs = self.numbers[3..].chunks_exact(2);
        let windows: Vec<Window> = pairs
            .map(|pair| Window {
                start: pair[0],
                length: pair[1],
            })
            .collect();
        Ok(vec![plan(self.numbers[0], self.numbers[1], &windows)?])
    }

    /// What is written about a sign into the buffer, the last list; first its length, or how many records it has.
    fn answer_written(&self) -> Answer<Vec<u32>> {
        let (mut one, mut two) = (self.lists[0].words(), self.lists[1].words());
        let banks = Banks {
            one: &mut one,
            two: &mut two,
        };
        let before = self.lists[self.lists.len() - 1].bytes();
        let mut buffer = before.clone();
        let (geometry, device) = (self.geometry, &self.device);
        let count = match self.call {
            Call::PageSheet => page_sheet(geometry, device, &banks, &mut buffer)?,
            _ => {
                let image = self.lists[2].words();
                write_script(geometry, device, &banks, &image, &mut buffer)?
            }
        };
        let mut outputs = vec![count];
        outputs.extend(byte_changes(&before, &buffer));
        Ok(outputs)
    }

    /// First which of the three answers it is.
    fn answer_reach(&self) -> Answer<Vec<u32>> {
        let (image, other) = (self.lists[0].words(), self.lists[1].words());
        Ok(match reach(self.geometry, &image, &other)? {
            Reach::Action { place } => vec![0, place],
            Reach::NoAction => vec![1],
            Reach::Words {
                count,
                lowest,
                highest,
            } => vec![2, count, lowest, highest],
        })
    }

    fn answer_lanes(&self) -> Answer<Vec<u32>> {
        let source = self.lists[0].bytes();
        let before = self.lists[1].bytes();
        let mut target = before.clone();
        match self.call {
            Call::LanesOut => lanes_out(&source, &mut target)?,
            _ => lanes_back(&source, &mut target)?,
        }
        Ok(byte_changes(&before, &target))
    }
}

/// The count of changed bytes, then index and new byte of each.
pub(super) fn byte_changes(before: &[u8], after: &[u8]) -> Vec<u32> {
    let mut outputs = vec![0];
    for (index, byte) in after.iter().enumerate() {
        if before[index] != *byte {
            outputs[0] += 1;
            outputs.extend([index as u32, u32::from(*byte)]);
        }
    }
    outputs
}
