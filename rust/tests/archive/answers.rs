//! Answers as the numbers of a case's line.

use yohrundel::{Decline, Device};

/// What stands right of the bar behind an accepted call's 0, or why the call is declined.
pub type Answer = Result<Vec<u64>, Decline>;

pub fn text(answer: &Answer) -> String {
    match answer {
        Ok(outputs) => join(&[&[0], &outputs[..]].concat()),
        Err(decline) => decline.number().to_string(),
    }
}

pub fn join(numbers: &[u64]) -> String {
    let words: Vec<String> = numbers.iter().map(u64::to_string).collect();
    words.join(" ")
}

pub fn device_numbers(device: &Device) -> Vec<u64> {
    let registers = (0..11).filter_map(|number| device.register(number));
    let steps = [device.keystep, device.step];
    let numbers = registers.chain(steps).chain(device.launched.numbers());
    numbers.map(u64::from).collect()
}

pub fn device_and_event(device: &Device, event: bool) -> Vec<u64> {
    [device_numbers(device), vec![u64::from(event)]].concat()
}

/// The count of changed elements, then index and new element of each, after the numbers of a front.
pub fn changes<T: Copy + PartialEq + Into<u64>>(
    front: &[u64],
    before: &[T],
    after: &[T],
) -> (u64, Vec<u64>) {
    let (mut count, mut numbers) = (0, Vec::new());
    for (index, (old, new)) in before.iter().zip(after).enumerate() {
        if old != new {
            count += 1;
            numbers.extend_from_slice(front);
            numbers.extend([index as u64, (*new).into()]);
        }
    }
    (count, numbers)
}
