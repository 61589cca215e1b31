//! The longest script that the play program takes, played on its sign.

use model::script;
use yohrundel::{play, Device, Geometry};

use crate::rounds::{report, rounds, Side};

/// 8,192 records, with stores, steps and resets, done and refused.
const SCRIPT: &[u8] = include_bytes!("../../../model/vectors/scripts/00001-max.bin");

/// The plays of a round.
const PLAYS: u32 = 16;

/// The archive's play into a buffer that holds all that is printed.
struct Archive(Vec<u8>);

/// The outside model's play program.
struct Outside(String);

impl Side for Archive {
    fn restart(&mut self) {}

    fn run(&mut self, _: u32) {
        let sign = Geometry { q: 1, b: 1, p: 1 };
        let (mut one, mut two) = ([!0; 64], [!0; 64]);
        one[28] = 0xFFFE_0001;
        let (device, buffer) = (Device::power_on(), &mut self.0);
        let played = play(sign, device, &mut one, &mut two, &[], SCRIPT, buffer);
        assert!(played.is_ok_and(|played| played.bytes == buffer.len()));
    }
}

impl Side for Outside {
    fn restart(&mut self) {}

    fn run(&mut self, _: u32) {
        self.0 = script::play(SCRIPT);
    }
}

/// The archive's play beside the model's.
pub fn beside_the_model() {
    let printed = script::play(SCRIPT);
    let mut archive = Archive(vec![0; printed.len()]);
    let mut outside = Outside(String::new());
    let times = rounds([&mut archive, &mut outside], PLAYS);
    assert_eq!(archive.0, outside.0.as_bytes(), "what is printed");
    let records = SCRIPT.len() as u32 / 8;
    println!("script of {records} records: it prints what the model prints");
    report(
        "play beside the model",
        &times,
        "record",
        [PLAYS * records; 2],
    );
}
