//! What the crate names as the culprit of a case: it is of the decline that the case expects, and none where it expects none.

use yohrundel::culprit::{self, Culprit};
use yohrundel::{Bench, Device, Geometry, Supply};

use crate::clauses::compare;
use crate::inputs::Inputs;
use crate::rows::Row;

/// Rules of the paper that no call gives by itself, and lists of calls.
const NO_CALLS: &[&str] = &[
    "compare",
    "compare_reason",
    "possible",
    "protected",
    "rowrun",
];

/// Fails where another culprit is named for the left side of a line than one of the decline that is expected, or another clause of 3 or 10
/// than the model's.
pub fn check(left: &str, expected: &str) {
    let mut inputs = Inputs::new(left);
    let name = inputs.word().unwrap_or("");
    if NO_CALLS.contains(&name) {
        return;
    }
    let culprit = culprit(name, &mut inputs);
    let named = culprit.as_ref().map_or(0, |of| of.decline().number());
    let number = expected.split(' ').next().unwrap_or("");
    assert!(
        named.to_string() == number,
        "\n{left} | {expected}\nthe crate named: {culprit:?}\n"
    );
    if let Some(culprit) = culprit {
        assert_eq!(culprit.to_string().lines().count(), 1);
        compare(left, &culprit);
    }
}

fn culprit(name: &str, inputs: &mut Inputs) -> Option<Culprit> {
    match name {
        "plan" => {
            let (minute, duration) = (inputs.number(), inputs.number());
            culprit::plan(minute, duration, &inputs.pairs())
        }
        "lanes_out" | "lanes_back" => culprit::lanes(&inputs.bytes(), &inputs.bytes()),
        "page" => {
            let (sign, bank) = (inputs.geometry(), inputs.list());
            culprit::page(sign, &bank, inputs.number())
        }
        "reach" => culprit::reach(inputs.geometry(), &inputs.list(), &inputs.list()),
        "schedule" => of_schedule(inputs),
        "store" | "register_read" | "startup" => {
            let (sign, device) = (inputs.geometry(), inputs.device());
            of_device(name, sign, &device, inputs)
        }
        _ => Sign::new(inputs).culprit(name, inputs),
    }
}

fn of_device(name: &str, sign: Geometry, device: &Device, inputs: &mut Inputs) -> Option<Culprit> {
    match name {
        "store" => culprit::store(sign, device, inputs.number(), inputs.number()),
        "register_read" => culprit::register_read(sign, device, inputs.number()),
        _ => culprit::start_up(sign, device),
    }
}

fn of_schedule(inputs: &mut Inputs) -> Option<Culprit> {
    let (geometry, k) = (inputs.geometry(), inputs.number());
    let row = Row::new(geometry, inputs);
    let supply = Supply {
        geometry,
        k,
        image: &row.image,
        sram: &row.sram,
    };
    culprit::schedule(&supply, &row.signs, &row.standing, &row.store)
}

/// What the calls on both banks begin with.
struct Sign {
    geometry: Geometry,
    device: Device,
    one: Vec<u32>,
    two: Vec<u32>,
}

impl Sign {
    fn new(inputs: &mut Inputs) -> Sign {
        Sign {
            geometry: inputs.geometry(),
            device: inputs.device(),
            one: inputs.list(),
            two: inputs.list(),
        }
    }

    fn culprit(&self, name: &str, inputs: &mut Inputs) -> Option<Culprit> {
        let (sign, device, one, two) = (self.geometry, &self.device, &self.one, &self.two);
        match name {
            "lower_bank" => culprit::lower_bank(sign, device, one, two),
            "page_sheet" => culprit::page_sheet(sign, device, one, two, &inputs.bytes()),
            "step" => culprit::step(sign, device, one, two, &inputs.list()),
            "flash_read" => {
                let (sram, address) = (inputs.list(), inputs.number());
                culprit::flash_read(sign, device, one, two, &sram, address)
            }
            "reset" => {
                let (sram, kind) = (inputs.list(), inputs.number());
                culprit::reset(sign, device, one, two, &sram, kind)
            }
            "play" | "play_length" => {
                let (sram, script) = (inputs.list(), inputs.bytes());
                culprit::play(sign, device, one, two, &sram, &script)
            }
            "smallest" => self.of_smallest(inputs),
            _ => self.of_update(name, inputs),
        }
    }

    fn of_update(&self, name: &str, inputs: &mut Inputs) -> Option<Culprit> {
        let (sign, device, one, two) = (self.geometry, &self.device, &self.one, &self.two);
        let image = inputs.list();
        match name {
            "update_start" => culprit::update_start(sign, device, one, two, &image),
            "write_script" => {
                let buffer = inputs.bytes();
                culprit::write_script(sign, device, one, two, &image, &buffer)
            }
            "turn" => {
                let (sram, place) = (inputs.list(), inputs.number());
                culprit::turn(sign, device, one, two, &image, &sram, place)
            }
            _ => panic!("no case of a call: {name}"),
        }
    }

    fn of_smallest(&self, inputs: &mut Inputs) -> Option<Culprit> {
        let sram = inputs.list();
        let bench = Bench {
            geometry: self.geometry,
            device: self.device,
            one: &self.one,
            two: &self.two,
            sram: &sram,
        };
        let (first, second) = (inputs.list(), inputs.list());
        let (script, number) = (inputs.bytes(), inputs.number());
        let result = inputs.bytes();
        culprit::smallest(&bench, [&first, &second], &script, number, &result)
    }
}
