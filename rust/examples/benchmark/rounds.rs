//! Rounds in which sides take turns, and what they took.

use crate::clock::nanoseconds;

/// How many rounds are timed, after one that is not.
pub const ROUNDS: usize = 15;

/// One of the sides that are timed beside each other.
pub trait Side {
    /// Makes ready for a round; not timed.
    fn restart(&mut self);

    /// One slice of a round's work.
    fn run(&mut self, slice: u32);
}

/// The nanoseconds that each side took in each round.
pub type Times<const SIDES: usize> = Vec<[f64; SIDES]>;

/// One round. The sides take turns at each slice, and at each slice another one is first.
fn round<const SIDES: usize>(sides: &mut [&mut dyn Side; SIDES], slices: u32) -> [f64; SIDES] {
    for side in sides.iter_mut() {
        side.restart();
    }
    let mut times = [0.0; SIDES];
    for slice in 0..slices {
        for next in 0..SIDES {
            let side = (slice as usize + next) % SIDES;
            let begin = nanoseconds();
            sides[side].run(slice);
            times[side] += (nanoseconds() - begin) as f64;
        }
    }
    times
}

/// All rounds.
pub fn rounds<const SIDES: usize>(mut sides: [&mut dyn Side; SIDES], slices: u32) -> Times<SIDES> {
    round(&mut sides, slices);
    (0..ROUNDS).map(|_| round(&mut sides, slices)).collect()
}

/// The least, the middle and the greatest.
fn spread(mut numbers: Vec<f64>) -> [f64; 3] {
    numbers.sort_by(f64::total_cmp);
    [
        numbers[0],
        numbers[numbers.len() / 2],
        numbers[numbers.len() - 1],
    ]
}

/// Prints a line: the first side's time for one unit of work as a part of the second's, round by round, and the time of each. A round has
/// so many units of work for the first side and for the second.
pub fn report(name: &str, times: &[[f64; 2]], unit: &str, units: [u32; 2]) {
    let [first, second] = units.map(f64::from);
    let each = times
        .iter()
        .map(|round| [round[0] / first, round[1] / second]);
    let [least, middle, most] = spread(each.clone().map(|[a, b]| a / b).collect());
    let [_, first, _] = spread(each.clone().map(|[a, _]| a).collect());
    let [_, second, _] = spread(each.map(|[_, b]| b).collect());
    println!(
        "{name}: {middle:.2} ({least:.2} to {most:.2}), {first:.2} ns and {second:.2} ns a {unit}"
    );
}
