//! A case's line: the archive's call for its inputs, and what it gives as text.
//!
//! Beside the calls of the model's cases there are two more, written in the same form:
//! `play G D A A S B B | ans [bytes D C X]`, with the script and the buffer as lists of bytes and X the pairs of index and byte that
//! changed in the buffer, and `play_length G D A A S B | ans [bytes]`.

use yohrundel::*;

use crate::answers::{device_and_event, device_numbers, text, Answer};
use crate::bank_cases::{flash_read_case, play_case, reset_case, step_case, turn_case};
use crate::byte_cases::{lanes_case, sheet_case, write_script_case};
use crate::culprits;
use crate::inputs::Inputs;
use crate::rows::{row_run_case, schedule_case};
use crate::rules::{self, possible, protected};
use crate::smallest::smallest_case;

/// What no call of the archive gives: the tests of the program `cases` compare it.
const NO_CALLS: &[&str] = &["valid_by_sum", "walk", "run"];

/// Whether a line is of a call that is compared here.
pub fn is_call(left: &str) -> bool {
    let (name, _) = left.split_once(' ').unwrap_or((left, ""));
    !NO_CALLS.contains(&name)
}

/// Fails where the archive gives something else for the left side of a line than the model, or the crate names another culprit of its decline.
pub fn check(left: &str, expected: &str) {
    let given = answer(left);
    assert!(
        given == expected,
        "\n{left} | {expected}\nthe archive gave: {given}\n"
    );
    culprits::check(left, expected);
}

/// What stands right of the bar, by the archive.
fn answer(left: &str) -> String {
    let mut inputs = Inputs::new(left);
    let text = call(inputs.word().unwrap_or(""), &mut inputs);
    assert_eq!(inputs.word(), None, "the line goes on: {left}");
    text
}

fn call(name: &str, inputs: &mut Inputs) -> String {
    match name {
        "compare" => rules::compare(inputs).to_string(),
        "compare_reason" => {
            let compared = compare(inputs.number(), inputs.number());
            format!("{} {}", compared.bank.number(), compared.reason.number())
        }
        "possible" => u32::from(possible(inputs)).to_string(),
        "protected" => u32::from(protected(inputs)).to_string(),
        "store" => text(&store_case(inputs)),
        "register_read" => text(&register_read_case(inputs)),
        "startup" => text(&start_up_case(inputs)),
        "flash_read" => flash_read_case(inputs),
        "lower_bank" => lower_bank_case(inputs),
        "page" => text(&page_case(inputs)),
        "update_start" => text(&update_start_case(inputs)),
        "step" => step_case(inputs),
        "reset" => reset_case(inputs),
        "turn" => turn_case(inputs),
        "play" => play_case(inputs),
        "play_length" => text(&play_length_case(inputs)),
        "plan" => text(&plan_case(inputs)),
        "page_sheet" => sheet_case(inputs),
        "lanes_out" => lanes_case(inputs, lanes_out),
        "lanes_back" => lanes_case(inputs, lanes_back),
        "write_script" => write_script_case(inputs),
        "reach" => text(&reach_case(inputs)),
        "smallest" => smallest_case(inputs),
        "schedule" => schedule_case(inputs),
        "rowrun" => row_run_case(inputs),
        _ => panic!("no case of a call: {name}"),
    }
}

fn store_case(inputs: &mut Inputs) -> Answer {
    let (sign, device) = (inputs.geometry(), inputs.device());
    let (register, form, value) = (inputs.number(), inputs.number(), inputs.number());
    let stored = store(sign, device, register, form, value)?;
    Ok(device_and_event(&stored.device, stored.event))
}

fn register_read_case(inputs: &mut Inputs) -> Answer {
    let read = register_read(inputs.geometry(), inputs.device(), inputs.number())?;
    Ok([vec![read.value.into()], device_numbers(&read.device)].concat())
}

fn start_up_case(inputs: &mut Inputs) -> Answer {
    let device = start_up(inputs.geometry(), inputs.device())?;
    Ok(device_numbers(&device))
}

/// The number of the bank by where its first word stands.
fn lower_bank_case(inputs: &mut Inputs) -> String {
    let (sign, device) = (inputs.geometry(), inputs.device());
    let (one, two) = (inputs.list(), inputs.list());
    match lower_bank(sign, device, &one, &two) {
        Ok(bank) if bank.as_ptr_range() == one.as_ptr_range() => String::from("0 1"),
        Ok(bank) if bank.as_ptr_range() == two.as_ptr_range() => String::from("0 2"),
        Ok(_) => String::from("neither of the banks whole"),
        Err(decline) => decline.number().to_string(),
    }
}

fn page_case(inputs: &mut Inputs) -> Answer {
    let (sign, bank) = (inputs.geometry(), inputs.list());
    let part = page(sign, &bank, inputs.number())?;
    let bytes = part.as_ptr() as usize - bank.as_ptr() as usize;
    Ok(vec![bytes as u64 / 4, part.len() as u64])
}

fn update_start_case(inputs: &mut Inputs) -> Answer {
    let (sign, device) = (inputs.geometry(), inputs.device());
    let (one, two, image) = (inputs.list(), inputs.list(), inputs.list());
    let started = update_start(sign, device, &one, &two, &image)?;
    Ok(vec![started.place.into(), started.total.into()])
}

fn play_length_case(inputs: &mut Inputs) -> Answer {
    let (sign, device) = (inputs.geometry(), inputs.device());
    let (one, two, sram) = (inputs.list(), inputs.list(), inputs.list());
    let bytes = play_length(sign, device, &one, &two, &sram, &inputs.bytes())?;
    Ok(vec![bytes as u64])
}

fn plan_case(inputs: &mut Inputs) -> Answer {
    let (minute, duration) = (inputs.number(), inputs.number());
    let wait = plan(minute, duration, &inputs.pairs())?;
    Ok(vec![wait.into()])
}

/// First which of the three answers it is.
fn reach_case(inputs: &mut Inputs) -> Answer {
    let (sign, image, other) = (inputs.geometry(), inputs.list(), inputs.list());
    Ok(match reach(sign, &image, &other)? {
        Reach::Action { place } => vec![0, place.into()],
        Reach::NoAction => vec![1],
        Reach::Words {
            count,
            lowest,
            highest,
        } => vec![2, count.into(), lowest.into(), highest.into()],
    })
}
