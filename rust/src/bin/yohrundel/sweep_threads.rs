//! The cuts of a sweep, on all cores.

use std::num::NonZero;
use std::sync::mpsc::{channel, Receiver, Sender};
use std::thread::{available_parallelism, scope};

use yohrundel::Decline;

use crate::progress::Progress;
use crate::sweep_cuts::Cuts;
use crate::sweep_places::share;
use crate::sweep_sign::Start;
use crate::sweep_tally::Tally;

/// What a thread tells of one place.
type Told = Result<Tally, Decline>;

/// Cuts at some places, which ascend, and tells how far it is.
pub fn sweep(
    start: &Start,
    cuts: &Cuts,
    places: &[u32],
    progress: &mut Progress,
) -> Result<Tally, Decline> {
    let threads = available_parallelism().map_or(1, NonZero::get);
    scope(|scope| {
        let (sender, receiver) = channel();
        for number in 1..=threads {
            let (sender, places) = (sender.clone(), share(places, number, threads));
            scope.spawn(move || cut_places(start, cuts, places, &sender));
        }
        drop(sender);
        sum(&receiver, places.len() as u32, progress)
    })
}

/// Adds up what the threads tell, up to their end or a fault. With the receiver gone the threads end.
fn sum(told: &Receiver<Told>, places: u32, progress: &mut Progress) -> Result<Tally, Decline> {
    let mut tally = Tally::default();
    for place in told {
        tally.add(place?);
        progress.show_now(tally.places, places);
        if tally.fault.is_some() {
            break;
        }
    }
    Ok(tally)
}

/// A thread: it turns once up to its last place, and cuts copies of the sign on the way.
fn cut_places(start: &Start, cuts: &Cuts, places: &[u32], sender: &Sender<Told>) {
    let (mut state, mut copy) = (start.state(), start.state());
    for place in places {
        let turned = state.turn_until(start, *place);
        let told = turned.map(|()| cuts.at(start, &state, &mut copy));
        if sender.send(told).is_err() {
            return;
        }
    }
}

#[cfg(test)]
mod tests {
    use yohrundel::Geometry;

    use super::*;
    use crate::resets::KINDS;
    use crate::sign::{made_up_image, Sign};
    use crate::sweep_tally::Fault;

    const SMALLEST: Geometry = Geometry { q: 1, b: 1, p: 1 };

    fn image() -> Vec<u32> {
        made_up_image(SMALLEST).expect("a sign")
    }

    fn fresh() -> Sign {
        Sign::fresh(SMALLEST, image()).expect("a sign")
    }

    fn swept(sign: Sign, places: &[u32], masks: &[[u32; 4]]) -> Tally {
        let start = Start::of(sign, image()).expect("it is accepted");
        let cuts = Cuts {
            masks: masks.into(),
            kinds: KINDS.into(),
        };
        let tally = sweep(&start, &cuts, places, &mut Progress::new());
        tally.expect("no turn is declined")
    }

    /// The new bank runs after cuts at the last three places, at the first of these where the mask lets all through; so it is where bank 1
    /// is the old one and where bank 2 is.
    #[test]
    fn right_outcomes() {
        let places: Vec<u32> = (0..=252).collect();
        let [one, two] = fresh().banks.clone();
        let exchanged = Sign::started(SMALLEST, [two, one], image()).expect("a sign");
        for sign in [fresh(), exchanged] {
            let tally = Tally {
                places: 253,
                old: 251 * 6 - 3,
                new: 2 * 6 + 3,
                fault: None,
            };
            assert_eq!(swept(sign, &places, &[[0; 4], [!0; 4]]), tally);
        }
        assert_eq!(swept(fresh(), &[], &[[0; 4]]), Tally::default());
    }

    /// A wrong bank, here one that is expected with another first word, ends the sweep, and is told with its cut.
    #[test]
    fn wrong_outcome() {
        let wrong = || {
            let mut sign = fresh();
            sign.new[0] ^= 1;
            sign
        };
        let fault = |place, mask| Fault {
            place,
            kind: KINDS[0],
            mask,
            ran: "the other bank runs, but is not exactly the new one".into(),
        };
        let tally = swept(wrong(), &[7, 8, 250], &[[0; 4], [!0; 4]]);
        assert_eq!(tally.fault, Some(fault(250, [!0; 4])));
        let tally = swept(wrong(), &[252], &[[0; 4]]);
        let expected = Tally {
            fault: Some(fault(252, [0; 4])),
            ..Tally::default()
        };
        assert_eq!(tally, expected);
        let text = "place 252, power-on, mask 00000000: the other bank runs, but is not exactly \
                    the new one";
        assert_eq!(fault(252, [0; 4]).to_string(), text);
    }
}
