//! Cases of the calls that change banks.

use yohrundel::*;

use crate::answers::{changes, device_and_event, device_numbers, join, text, Answer};
use crate::inputs::Inputs;
use crate::lent::Lent;

/// Makes a call on copies of two banks; the text of its answer and of what changed.
fn on_banks(banks: &[Vec<u32>; 2], call: impl FnOnce(&mut [u32], &mut [u32]) -> Answer) -> String {
    let [mut one, mut two] = [0, 1].map(|bank| Lent::new(&banks[bank], 0x5A5A_5A5A));
    let answer = call(one.lend(), two.lend());
    let (first, in_one) = changes(&[1], &banks[0], one.after());
    let (second, in_two) = changes(&[2], &banks[1], two.after());
    let changed = [vec![first + second], in_one, in_two].concat();
    if !one.margin_kept() || !two.margin_kept() {
        return String::from("words beside a bank changed");
    }
    match answer {
        Ok(outputs) => text(&Ok([outputs, changed].concat())),
        Err(decline) if changed == [0] => decline.number().to_string(),
        Err(decline) => format!("{}, but it changed {}", decline.number(), join(&changed)),
    }
}

pub fn flash_read_case(inputs: &mut Inputs) -> String {
    let (sign, device) = (inputs.geometry(), inputs.device());
    let banks = [inputs.list(), inputs.list()];
    let (sram, address) = (inputs.list(), inputs.number());
    on_banks(&banks, |one, two| {
        let read = flash_read(sign, device, one, two, &sram, address)?;
        let front = vec![read.word.into(), read.event.into()];
        Ok([front, device_numbers(&read.device)].concat())
    })
}

pub fn step_case(inputs: &mut Inputs) -> String {
    let (sign, device) = (inputs.geometry(), inputs.device());
    let banks = [inputs.list(), inputs.list()];
    let sram = inputs.list();
    on_banks(&banks, |one, two| {
        let stepped = step(sign, device, one, two, &sram)?;
        Ok(device_and_event(&stepped.device, stepped.event))
    })
}

pub fn reset_case(inputs: &mut Inputs) -> String {
    let (sign, device) = (inputs.geometry(), inputs.device());
    let banks = [inputs.list(), inputs.list()];
    let (sram, kind, mask) = (inputs.list(), inputs.number(), inputs.four());
    on_banks(&banks, |one, two| {
        let restarted = reset(sign, device, one, two, &sram, kind, mask)?;
        let reason = restarted.reason.number().into();
        Ok([device_numbers(&restarted.device), vec![reason]].concat())
    })
}

fn turn_numbers(device: &Device, outcome: TurnOutcome) -> Vec<u64> {
    let rest = vec![outcome.place.into(), outcome.event.into()];
    [vec![outcome.done.into()], device_numbers(device), rest].concat()
}

/// Both forms of a turn.
pub fn turn_case(inputs: &mut Inputs) -> String {
    let (sign, device) = (inputs.geometry(), inputs.device());
    let banks = [inputs.list(), inputs.list()];
    let (image, sram, place) = (inputs.list(), inputs.list(), inputs.number());
    let by_value = on_banks(&banks, |one, two| {
        let turned = turn(sign, device, one, two, &image, &sram, place)?;
        Ok(turn_numbers(&turned.device, turned.outcome))
    });
    let mut after = device;
    let lent = on_banks(&banks, |one, two| {
        let outcome = turn_lent(sign, &mut after, one, two, &image, &sram, place)?;
        Ok(turn_numbers(&after, outcome))
    });
    if by_value != lent {
        return format!("{by_value}; with the device lent {lent}");
    }
    if !by_value.starts_with("0 ") && after != device {
        return format!("{by_value}, but the lent device changed");
    }
    by_value
}

pub fn play_case(inputs: &mut Inputs) -> String {
    let (sign, device) = (inputs.geometry(), inputs.device());
    let banks = [inputs.list(), inputs.list()];
    let (sram, script, buffer) = (inputs.list(), inputs.bytes(), inputs.bytes());
    let mut out = Lent::new(&buffer, 0x5A);
    let answer = on_banks(&banks, |one, two| {
        let played = play(sign, device, one, two, &sram, &script, out.lend())?;
        Ok([vec![played.bytes as u64], device_numbers(&played.device)].concat())
    });
    let (count, changed) = changes(&[], &buffer, out.after());
    if !out.margin_kept() {
        return String::from("bytes beside the buffer changed");
    }
    if answer.starts_with("0 ") {
        let changed = join(&[vec![count], changed].concat());
        return format!("{answer} {changed}");
    }
    if count > 0 {
        return format!("{answer}, but the buffer changed");
    }
    answer
}
