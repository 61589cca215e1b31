//! A play as a case: the model's answer, record by record.

use model::cases::{Call, Case};
use model::device::{check_device, Device};
use model::geometry::{check_sram, Banks, Geometry};
use model::list::List;
use model::script::{play_records, records};
use model::Answer;

use crate::case::check;

/// What the buffer holds before a play; no byte of an output.
const BLANK: u8 = 0xA5;

/// Where and on what a script is played: a case of a step.
pub struct Bench(Case);

/// What a play leaves, by the model.
pub struct Playback {
    device: Device,
    banks: [Vec<u32>; 2],
    pub output: String,
}

impl Bench {
    /// The inputs of a case of a step or a reset.
    pub fn new(case: Case) -> Bench {
        let (call, numbers) = (Call::Step, Vec::new());
        Bench(Case {
            call,
            numbers,
            ..case
        })
    }

    /// The bench of the play program: "Q=B=P=1, all ones but bank 1's sequence word 0xFFFE0001, no SRAM, after power-on".
    pub fn of_the_program() -> Bench {
        let mut case = Case::new(Call::Step);
        case.geometry = [1, 1, 1];
        let mut one = [!0; 64];
        one[28] = 0xFFFE_0001;
        case.lists = [&one[..], &[!0; 64], &[]].map(List::from_words).to_vec();
        Bench(case)
    }

    /// The model's play. The declines are judged in the order of their numbers.
    pub fn play(&self, script: &[u8]) -> Answer<Playback> {
        let numbers = self.0.geometry;
        let geometry = Geometry::new(numbers)?;
        let [mut one, mut two, sram] = [0, 1, 2].map(|list| self.0.lists[list].words());
        let mut banks = Banks {
            one: &mut one,
            two: &mut two,
        };
        banks.check(&geometry)?;
        check_sram(&sram)?;
        check_device(&geometry, &self.0.device)?;
        let (mut device, records) = (self.0.device, records(script)?);
        let output = play_records(numbers, &mut device, &mut banks, &sram, &records);
        let banks = [one, two];
        Ok(Playback {
            device,
            banks,
            output,
        })
    }

    /// Compares a play into a buffer of some length, and what is said of its output's length.
    pub fn check(&self, script: &[u8], buffer: usize) {
        let inputs = self.0.inputs();
        let bench = inputs.strip_prefix("step ").expect("a case of a step");
        let script_list = list_text(script);
        let buffer_list = list_text(&vec![BLANK; buffer]);
        let (played, length) = match self.play(script) {
            Ok(playback) => (
                self.played_text(&playback, buffer),
                format!("0 {}", playback.output.len()),
            ),
            Err(refusal) => (refusal.number().to_string(), refusal.number().to_string()),
        };
        check(
            &format!("play {bench} {script_list} {buffer_list}"),
            &played,
        );
        check(&format!("play_length {bench} {script_list}"), &length);
    }

    /// The right side of an accepted play.
    fn played_text(&self, playback: &Playback, buffer: usize) -> String {
        let mut numbers = vec![0, playback.output.len() as u32];
        numbers.extend(playback.device.registers);
        numbers.extend([playback.device.key_step, playback.device.step_number]);
        numbers.extend(playback.device.launched.numbers());
        let mut changed = Vec::new();
        for (bank, after) in playback.banks.iter().enumerate() {
            for (index, (old, new)) in self.0.lists[bank].words().iter().zip(after).enumerate() {
                if old != new {
                    changed.push([bank as u32 + 1, index as u32, *new]);
                }
            }
        }
        numbers.push(changed.len() as u32);
        numbers.extend(changed.concat());
        let written = &playback.output.as_bytes()[..buffer.min(playback.output.len())];
        numbers.push(written.len() as u32);
        for (index, byte) in written.iter().enumerate() {
            numbers.extend([index as u32, (*byte).into()]);
        }
        let words: Vec<String> = numbers.iter().map(u32::to_string).collect();
        words.join(" ")
    }
}

/// Bytes as a lent list.
fn list_text(bytes: &[u8]) -> String {
    let words: Vec<u32> = bytes.iter().map(|byte| (*byte).into()).collect();
    let mut numbers = Vec::new();
    List::from_words(&words).put(&mut numbers);
    let words: Vec<String> = numbers.iter().map(u32::to_string).collect();
    words.join(" ")
}
