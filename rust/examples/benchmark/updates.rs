//! Whole updates beside the outside model's, and of a large sign beside a small one's.

use crate::rounds::{report, rounds, Side, Times};
use crate::turns::{ByValue, Lent, Outside, Start, Update, SLICE};

/// Q, B and P.
const LARGEST: [u32; 3] = [128, 5, 128];
const SMALLEST: [u32; 3] = [1, 1, 1];

/// An update of the largest sign by both turns, beside the model's on the same banks and image.
pub fn beside_the_model() {
    let start = Start::new(LARGEST);
    let mut lent = Update::<Lent>::new(&start);
    let mut by_value = Update::<ByValue>::new(&start);
    let mut outside = Update::<Outside>::new(&start);
    let times = rounds([&mut lent, &mut by_value, &mut outside], start.slices());
    assert!(lent.end() == outside.end(), "the device lent");
    assert!(by_value.end() == outside.end(), "the device by value");
    let total = start.total;
    println!("update of {total} actions: both turns end with the model's device and banks, word for word");
    for (side, name) in [(0, "lent"), (1, "by value")] {
        let times: Times<2> = times.iter().map(|round| [round[side], round[2]]).collect();
        let name = format!("turn, the device {name}, beside the model");
        report(&name, &times, "turn", [total; 2]);
    }
}

/// Whole updates of a small sign, as many as fill a slice.
struct Repeated<'a>(Update<'a, Lent>);

impl Repeated<'_> {
    fn updates(&self) -> u32 {
        SLICE / self.0.start.total
    }
}

impl Side for Repeated<'_> {
    fn restart(&mut self) {}

    fn run(&mut self, _: u32) {
        for _ in 0..self.updates() {
            self.0.restart();
            self.0.turns(0..self.0.start.total);
        }
    }
}

/// The cost of a turn of the largest sign beside one of the smallest.
pub fn by_size() {
    let (largest, smallest) = (Start::new(LARGEST), Start::new(SMALLEST));
    let slices = largest.slices();
    let mut large = Update::<Lent>::new(&largest);
    let mut small = Repeated(Update::new(&smallest));
    let times = rounds([&mut large, &mut small], slices);
    let counts = [largest.total, slices * small.updates() * smallest.total];
    let name = "turn, the device lent, with N=133 and Q=128 beside N=2 and Q=1";
    report(name, &times, "turn", counts);
}
