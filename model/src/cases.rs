//! Call cases: parsing a line, making the call, printing what stands right of the bar.

mod moves;
mod requests;
mod rows;
mod runs;
mod shapes;
mod smallest;
mod walks;

pub use shapes::{Call, Rest, Shape, BASE, SHAPES};

use crate::device::{possible, protected, Device, Operands, REGISTERS};
use crate::flash::{flash_read, lower_bank, page, reset, step};
use crate::geometry::{Banks, Geometry, Kind, Side};
use crate::list::List;
use crate::schedule::Row;
use crate::sequence::{compare, valid};
use crate::store::{register_read, start_up, store};
use crate::update::{turn, update_start};
use crate::Answer;

/// One case; inputs that its call does not take stay at their default.
#[derive(Clone, Debug, PartialEq, Eq)]
pub struct Case {
    pub call: Call,
    pub geometry: [u32; 3],
    pub device: Device,
    pub row: Row,
    pub lists: Vec<List>,
    pub numbers: Vec<u32>,
}

impl Case {
    pub fn new(call: Call) -> Case {
        Case {
            call,
            geometry: [0; 3],
            device: Device::reset_values(),
            row: Row::default(),
            lists: Vec::new(),
            numbers: Vec::new(),
        }
    }

    /// The case of a line; what follows a bar is ignored.
    pub fn parse(line: &str) -> Option<Case> {
        let mut parts = left_of_bar(line).split(' ');
        let name = parts.next()?;
        let shape = SHAPES.iter().find(|shape| shape.name == name)?;
        let numbers: Option<Vec<u32>> = parts.map(parse_number).collect();
        let mut numbers = numbers?.into_iter();
        let case = Case::take(shape, &mut numbers)?;
        match numbers.next() {
            None => Some(case),
            Some(_) => None,
        }
    }

    fn take(shape: &Shape, numbers: &mut impl Iterator<Item = u32>) -> Option<Case> {
        let mut case = Case::new(shape.call);
        if shape.geometry {
            case.geometry = [numbers.next()?, numbers.next()?, numbers.next()?];
        }
        if shape.device {
            case.device = take_device(numbers)?;
        }
        case.take_lists(shape, shape.lists - shape.behind, numbers)?;
        for _ in 0..shape.numbers {
            case.numbers.push(numbers.next()?);
        }
        if shape.row {
            case.row = rows::take_row(numbers)?;
        }
        case.take_lists(shape, shape.behind, numbers)?;
        match shape.rest {
            Rest::Nothing => {}
            Rest::Pairs => case.numbers.extend(take_pairs(numbers)?),
            Rest::Moves(counts) => case.numbers.extend(moves::take_moves(counts, numbers)?),
            Rest::Calls => rows::put_counted(&take_counted(numbers)?, &mut case.numbers),
        }
        Some(case)
    }

    /// Takes more of the lists.
    fn take_lists(
        &mut self,
        shape: &Shape,
        count: usize,
        numbers: &mut impl Iterator<Item = u32>,
    ) -> Option<()> {
        for _ in 0..count {
            let list = List::take(numbers)?;
            if self.lists.len() + shape.bytes >= shape.lists && !list.holds_bytes() {
                return None;
            }
            self.lists.push(list);
        }
        Some(())
    }

    /// What stands left of the bar.
    pub fn inputs(&self) -> String {
        let shape = self.call.shape();
        let mut numbers = Vec::new();
        if shape.geometry {
            numbers.extend(self.geometry);
        }
        if shape.device {
            put_device(&self.device, &mut numbers);
        }
        let (front, behind) = self.lists.split_at(self.lists.len() - shape.behind);
        for list in front {
            list.put(&mut numbers);
        }
        let (first, rest) = self.numbers.split_at(shape.numbers);
        numbers.extend(first);
        if shape.row {
            rows::put_row(&self.row, &mut numbers);
        }
        for list in behind {
            list.put(&mut numbers);
        }
        numbers.extend(rest);
        let mut text = String::from(shape.name);
        for number in numbers {
            text.push(' ');
            text.push_str(&number.to_string());
        }
        text
    }

    /// What stands right of the bar; none where the call takes no such inputs.
    pub fn answer(&self) -> Option<String> {
        let numbers = match self.call {
            Call::Compare => vec![compare(self.numbers[0], self.numbers[1]).bank.number()],
            Call::CompareReason => {
                let compared = compare(self.numbers[0], self.numbers[1]);
                vec![compared.bank.number(), compared.reason.number()]
            }
            Call::Possible => {
                let geometry = Geometry::new(self.geometry).ok()?;
                vec![u32::from(possible(&geometry, &self.device))]
            }
            Call::Protected => vec![u32::from(self.answer_protected()?)],
            Call::ValidBySum => vec![u32::from(valid(self.numbers[0]))],
            Call::Walk => self.answer_walk(),
            Call::Run => self.answer_run()?,
            Call::Smallest => self.answer_smallest(),
            Call::RowRun => self.answer_row_run(),
            _ => match self.answer_call() {
                Ok(mut outputs) => {
                    outputs.insert(0, 0);
                    outputs
                }
                Err(refusal) => vec![refusal.number()],
            },
        };
        Some(join(&numbers))
    }

    fn answer_protected(&self) -> Option<bool> {
        let geometry = Geometry::new(self.geometry).ok()?;
        let kind = [Kind::Boot, Kind::Program].get(self.numbers[0] as usize)?;
        let side = [Side::Lower, Side::Upper].get(self.numbers[1] as usize)?;
        let page = self.numbers[2];
        if page >= geometry.window_pages(*kind) {
            return None;
        }
        Some(protected(&geometry, &self.device, *kind, *side, page))
    }

    fn answer_call(&self) -> Answer<Vec<u32>> {
        let (geometry, device, numbers) = (self.geometry, self.device, &self.numbers);
        match self.call {
            Call::Store => {
                let (after, event) = store(geometry, device, numbers[0], numbers[1], numbers[2])?;
                Ok(device_outputs(&after, &[u32::from(event)]))
            }
            Call::RegisterRead => {
                let (value, after) = register_read(geometry, device, numbers[0])?;
                let mut outputs = vec![value];
                put_device(&after, &mut outputs);
                Ok(outputs)
            }
            Call::StartUp => Ok(device_outputs(&start_up(geometry, device)?, &[])),
            Call::Page => self.answer_page(),
            Call::Plan
            | Call::PageSheet
            | Call::LanesOut
            | Call::LanesBack
            | Call::WriteScript
            | Call::Reach
            | Call::Schedule => self.answer_request(),
            _ => self.answer_with_banks(),
        }
    }

    /// The first word's index and the length of the part handed back.
    fn answer_page(&self) -> Answer<Vec<u32>> {
        let bank = self.lists[0].words();
        let part = page(self.geometry, &bank, self.numbers[0])?;
        let bytes = part.as_ptr() as usize - bank.as_ptr() as usize;
        Ok(vec![(bytes / 4) as u32, part.len() as u32])
    }

    fn answer_with_banks(&self) -> Answer<Vec<u32>> {
        let before = [self.lists[0].words(), self.lists[1].words()];
        let [mut one, mut two] = before.clone();
        let mut banks = Banks {
            one: &mut one,
            two: &mut two,
        };
        let mut outputs = self.call_with_banks(&mut banks)?;
        if !matches!(self.call, Call::LowerBank | Call::UpdateStart) {
            outputs.extend(changes(&before, &[one, two]));
        }
        Ok(outputs)
    }

    fn call_with_banks(&self, banks: &mut Banks) -> Answer<Vec<u32>> {
        let (geometry, device, numbers) = (self.geometry, self.device, &self.numbers);
        let third = self.lists.get(2).map_or(Vec::new(), List::words);
        match self.call {
            Call::FlashRead => {
                let read = flash_read(geometry, device, banks, &third, numbers[0])?;
                let mut outputs = vec![read.word, u32::from(read.event)];
                put_device(&read.device, &mut outputs);
                Ok(outputs)
            }
            Call::LowerBank => {
                let lower = lower_bank(geometry, &device, banks)?;
                let first = lower.as_ptr() == banks.one.as_ptr();
                Ok(vec![if first { 1 } else { 2 }])
            }
            Call::Step => {
                let (after, event) = step(geometry, device, banks, &third)?;
                Ok(device_outputs(&after, &[u32::from(event)]))
            }
            Call::Reset => {
                let mask = [numbers[1], numbers[2], numbers[3], numbers[4]];
                let after = reset(geometry, device, banks, &third, numbers[0], mask)?;
                Ok(device_outputs(&after.device, &[after.reason.number()]))
            }
            Call::UpdateStart => {
                let (place, total) = update_start(geometry, &device, banks, &third)?;
                Ok(vec![place, total])
            }
            _ => {
                let sram = self.lists[3].words();
                let after = turn(geometry, device, banks, &third, &sram, numbers[0])?;
                let mut outputs = vec![u32::from(after.done)];
                put_device(&after.device, &mut outputs);
                outputs.extend([after.place, u32::from(after.event)]);
                Ok(outputs)
            }
        }
    }
}

/// The right side for a line, `?` where it is no case.
pub fn answer_line(line: &str) -> String {
    let answer = Case::parse(line).and_then(|case| case.answer());
    answer.unwrap_or_else(|| String::from("?"))
}

/// What stands left of a line's bar, without the blank before it.
pub fn left_of_bar(line: &str) -> &str {
    let left = line.split('|').next().unwrap_or("");
    left.strip_suffix(' ').unwrap_or(left)
}

fn parse_number(part: &str) -> Option<u32> {
    if part.is_empty() || !part.bytes().all(|byte| byte.is_ascii_digit()) {
        return None;
    }
    part.parse().ok()
}

/// A count, then that many pairs.
fn take_pairs(numbers: &mut impl Iterator<Item = u32>) -> Option<Vec<u32>> {
    let count = numbers.next()?;
    let mut taken = vec![count];
    for _ in 0..count {
        taken.extend([numbers.next()?, numbers.next()?]);
    }
    Some(taken)
}

/// A count, then that many numbers; the count is not kept.
fn take_counted(numbers: &mut impl Iterator<Item = u32>) -> Option<Vec<u32>> {
    let count = numbers.next()?;
    (0..count).map(|_| numbers.next()).collect()
}

fn take_device(numbers: &mut impl Iterator<Item = u32>) -> Option<Device> {
    let mut registers = [0; REGISTERS];
    for register in &mut registers {
        *register = numbers.next()?;
    }
    let key_step = numbers.next()?;
    let step_number = numbers.next()?;
    let launched = take_operands(numbers)?;
    Some(Device {
        registers,
        key_step,
        step_number,
        launched,
    })
}

fn take_operands(numbers: &mut impl Iterator<Item = u32>) -> Option<Operands> {
    let address = numbers.next()?;
    let mut data = [0; 4];
    for word in &mut data {
        *word = numbers.next()?;
    }
    let source = numbers.next()?;
    Some(Operands {
        address,
        data,
        source,
    })
}

fn put_device(device: &Device, numbers: &mut Vec<u32>) {
    numbers.extend(device.registers);
    numbers.extend([device.key_step, device.step_number]);
    numbers.extend(device.launched.numbers());
}

fn device_outputs(device: &Device, rest: &[u32]) -> Vec<u32> {
    let mut outputs = Vec::new();
    put_device(device, &mut outputs);
    outputs.extend(rest);
    outputs
}

/// The count of changed words, then bank, index and new word of each.
fn changes(before: &[Vec<u32>; 2], after: &[Vec<u32>; 2]) -> Vec<u32> {
    let mut outputs = vec![0];
    for (bank, words) in after.iter().enumerate() {
        for (index, word) in words.iter().enumerate() {
            if before[bank][index] != *word {
                outputs[0] += 1;
                outputs.extend([bank as u32 + 1, index as u32, *word]);
            }
        }
    }
    outputs
}

fn join(numbers: &[u32]) -> String {
    let parts: Vec<String> = numbers.iter().map(u32::to_string).collect();
    parts.join(" ")
}
