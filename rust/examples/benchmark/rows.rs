//! Calls for a row of signs, beside turns of the same signs in a loop.

use model::generate::random_image;
use model::geometry::Geometry as OutsideGeometry;
use yohrundel::{schedule, turn, Device, Geometry, SignRecord, Standing, Supply, MOST_SIGNS};

use crate::rounds::{report, rounds, Side};

/// Q, B and P.
const SMALLEST: [u32; 3] = [1, 1, 1];

/// The first actions of each update, a page erase among them, and those of a slice.
const ACTIONS: u32 = 63;
const SLICE: u32 = 21;

/// Signs at their start, with the banks of each one after the other.
#[derive(Clone, PartialEq)]
struct Signs {
    list: Vec<SignRecord>,
    store: Vec<u32>,
}

impl Signs {
    fn new(geometry: Geometry, count: usize) -> Signs {
        let words = geometry.bank_words().expect("a sign");
        let sequence = geometry.sequence_index().expect("a sign");
        let mut store = vec![!0; 2 * count * words];
        let list = (0..count).map(|number| {
            let one = 2 * number * words;
            store[one + sequence] = 0xFFFE_0001;
            SignRecord {
                device: Device::power_on(),
                place: 0,
                one: one as u32,
                two: (one + words) as u32,
            }
        });
        Signs {
            list: list.collect(),
            store,
        }
    }
}

/// Calls for the signs: as many operations may run together as there are signs, so the calls serve one sign after another.
struct Calls<'a> {
    supply: Supply<'a>,
    start: Signs,
    signs: Signs,
    standing: Standing,
}

impl Side for Calls<'_> {
    fn restart(&mut self) {
        self.signs = self.start.clone();
        self.standing = Standing::fresh(self.start.list.len());
    }

    fn run(&mut self, _: u32) {
        let Signs { list, store } = &mut self.signs;
        for _ in 0..SLICE as usize * list.len() {
            let served = schedule(self.supply, list, &mut self.standing, store);
            assert!(matches!(served, Ok(Some(_))), "a call that serves nobody");
        }
    }
}

/// Turns for one sign after another.
struct Loop<'a> {
    supply: Supply<'a>,
    start: Signs,
    signs: Signs,
}

impl Side for Loop<'_> {
    fn restart(&mut self) {
        self.signs = self.start.clone();
    }

    fn run(&mut self, _: u32) {
        for _ in 0..SLICE {
            self.turns();
        }
    }
}

impl Loop<'_> {
    fn turns(&mut self) {
        let (geometry, image) = (self.supply.geometry, self.supply.image);
        for sign in &mut self.signs.list {
            let own = &mut self.signs.store[sign.one as usize..][..2 * image.len()];
            let (one, two) = own.split_at_mut(image.len());
            let turned = turn(geometry, sign.device, one, two, image, &[], sign.place);
            let turned = turned.expect("a turn that is not declined");
            (sign.device, sign.place) = (turned.device, turned.outcome.place);
        }
    }
}

fn measure(count: usize) {
    let [q, b, p] = SMALLEST;
    let geometry = Geometry { q, b, p };
    let outside = OutsideGeometry::new(SMALLEST).expect("a sign");
    let supply = Supply {
        geometry,
        k: MOST_SIGNS as u32,
        image: &random_image(&outside, 1),
        sram: &[],
    };
    let start = Signs::new(geometry, count);
    let (standing, signs) = (Standing::fresh(count), start.clone());
    let mut turns = Loop {
        supply,
        start: start.clone(),
        signs: start.clone(),
    };
    let mut calls = Calls {
        supply,
        start,
        signs,
        standing,
    };
    let times = rounds([&mut calls, &mut turns], ACTIONS / SLICE);
    assert!(calls.signs == turns.signs, "other signs than the loop's");
    let done = ACTIONS * count as u32;
    let mut seconds: Vec<f64> = times.iter().map(|round| round[0] / 1e9).collect();
    seconds.sort_by(f64::total_cmp);
    let a_second = f64::from(done) / seconds[seconds.len() / 2];
    println!(
        "row of {count} signs: {a_second:.0} calls a second, which leave what turns in a loop do"
    );
    let name = format!("call for a row of {count} signs, beside {count} turns in a loop");
    report(&name, &times, "turn", [done; 2]);
}

/// Rows of the smallest sign: what a call costs beyond its turn grows with the list, and not with the banks.
pub fn beside_turns_in_a_loop() {
    for count in [8, MOST_SIGNS] {
        measure(count);
    }
}
