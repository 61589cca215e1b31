//! The numbers right of a line's bar.

use std::fmt;

use yohrundel::Device;

use crate::inputs::Banks;

/// Numbers in the order in which they are put.
pub struct Outputs(Vec<u64>);

impl Outputs {
    pub fn none() -> Outputs {
        Outputs(Vec::new())
    }

    pub fn only(number: u32) -> Outputs {
        Outputs(vec![number.into()])
    }

    /// The 0 of a call that is not declined.
    pub fn accepted() -> Outputs {
        Outputs::only(0)
    }

    /// A number, and 1 or 0 for what is true or not.
    pub fn number(mut self, number: impl Into<u64>) -> Outputs {
        self.0.push(number.into());
        self
    }

    pub fn count(self, count: usize) -> Outputs {
        self.number(count as u64)
    }

    /// D.
    pub fn device(mut self, device: &Device) -> Outputs {
        let registers = (0..11).filter_map(|number| device.register(number));
        let steps = [device.keystep, device.step];
        let numbers = registers.chain(steps).chain(device.launched.numbers());
        self.0.extend(numbers.map(u64::from));
        self
    }

    /// C: "n, then n triples of bank (1 or 2), word index, new word".
    pub fn bank_changes(self, before: &Banks, after: &Banks) -> Outputs {
        let in_one = changes(&before.one, &after.one);
        let in_two = changes(&before.two, &after.two);
        let mut outputs = self.count(in_one.len() + in_two.len());
        for (bank, changed) in [(1u32, in_one), (2, in_two)] {
            for (index, word) in changed {
                outputs = outputs.number(bank).count(index).number(word);
            }
        }
        outputs
    }

    /// X and Z: "n, then n pairs of index and new byte", or new word.
    pub fn changes<T: Copy + PartialEq + Into<u64>>(self, before: &[T], after: &[T]) -> Outputs {
        let changed = changes(before, after);
        let mut outputs = self.count(changed.len());
        for (index, element) in changed {
            outputs = outputs.count(index).number(element);
        }
        outputs
    }
}

/// Index and new element of each that is not what it was.
fn changes<T: Copy + PartialEq>(before: &[T], after: &[T]) -> Vec<(usize, T)> {
    let pairs = before.iter().zip(after).enumerate();
    let changed = pairs.filter(|(_, (old, new))| old != new);
    changed.map(|(index, (_, new))| (index, *new)).collect()
}

impl fmt::Display for Outputs {
    fn fmt(&self, formatter: &mut fmt::Formatter<'_>) -> fmt::Result {
        for (index, number) in self.0.iter().enumerate() {
            let blank = if index == 0 { "" } else { " " };
            write!(formatter, "{blank}{number}")?;
        }
        Ok(())
    }
}
