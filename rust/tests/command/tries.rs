//! `yohrundel cut --then` and `--cut-start-up`: a supply that fails again and again, every byte of it beside the outside model.

use model::geometry::Bank;
use model::random::Random;
use model::update::total;

use crate::outside::{Sign, LEGEND};
use crate::reads::{reading, windows};
use crate::run::run;
use crate::updates::{again, ending, failing, geometry_text, mask_text, KINDS, MASKS};

/// One cut of an update.
#[derive(Clone)]
struct Cut {
    place: u32,
    kind: u32,
    mask: [u32; 4],
    /// The number of the window that is read just before.
    read: Option<usize>,
    start_ups: Vec<u32>,
}

impl Cut {
    fn new(place: u32, kind: u32, mask: [u32; 4]) -> Cut {
        Cut {
            place,
            kind,
            mask,
            read: None,
            start_ups: Vec::new(),
        }
    }

    fn random(random: &mut Random, total: u32) -> Cut {
        // The sign with Q = 1 erases at the places from 19 on, and programs its sequence quad before the last two places.
        let place = match random.below(4) {
            0 => total - random.below(4),
            1 => 19 + random.below(8),
            _ => random.below(total + 1),
        };
        let count = random.below(3);
        Cut {
            place,
            kind: random.below(3),
            mask: random.mask(),
            read: random.one_in(3).then(|| random.below(4) as usize),
            start_ups: (0..count).map(|_| random.below(7)).collect(),
        }
    }

    /// Its arguments; the options stand behind.
    fn arguments(&self, sign: &Sign) -> String {
        let (place, kind, mask) = (self.place, KINDS[self.kind as usize], mask_text(self.mask));
        let mut text = format!("{place} {kind} {mask}");
        if let Some(window) = self.read {
            text += &format!(" --read {:x}", windows(sign)[window]);
        }
        for stores in &self.start_ups {
            text += &format!(" --cut-start-up {stores}");
        }
        text
    }

    /// What it prints of a sign whose update begins, and the bank that runs then.
    fn expected(&self, sign: &mut Sign) -> (String, Bank) {
        sign.turns(0, self.place);
        let front = match self.read {
            Some(window) => reading(sign, self.place, windows(sign)[window]).0,
            None => format!("At place {}", self.place),
        };
        failing(sign, &front, self.kind, self.mask, &self.start_ups)
    }
}

/// What cuts of a fresh sign print, and how many of them are made.
fn expected(numbers: [u32; 3], cuts: &[Cut]) -> (String, usize) {
    let mut sign = Sign::fresh(numbers, None);
    let mut text = format!("The update has {} actions.\n", total(&sign.geometry));
    for (made, cut) in (1..).zip(cuts) {
        let (failing, runs) = cut.expected(&mut sign);
        text += &failing;
        if runs != sign.runs_before {
            let rest = match cuts.len() - made {
                0 => "",
                _ => "; the other cuts are left out",
            };
            text += &format!("The update is complete{rest}.\n{}\n{LEGEND}", ending(&sign));
            return (text, made);
        }
        assert_eq!(sign.start(), Ok(total(&sign.geometry)));
        if made < cuts.len() {
            text += "The same update is accepted again.\n";
        }
    }
    text += &format!("{}\n{LEGEND}", again(&mut sign));
    (text, cuts.len())
}

/// Runs the cuts; gives how many of them are made.
fn check(numbers: [u32; 3], cuts: &[Cut]) -> usize {
    let sign = Sign::fresh(numbers, None);
    let cut_texts: Vec<String> = cuts.iter().map(|cut| cut.arguments(&sign)).collect();
    let (sizes, cut_texts) = (geometry_text(numbers), cut_texts.join(" --then "));
    let arguments = format!("cut {sizes} {cut_texts}");
    let arguments: Vec<&str> = arguments.split(' ').collect();
    let (expected, made) = expected(numbers, cuts);
    assert_eq!(run(&arguments).printed(), expected, "{arguments:?}");
    made
}

/// Two cuts: the first at every place of the smallest sign, the kinds and masks in turn.
#[test]
fn two_cuts() {
    let mut left_out = 0;
    for place in 0..=252 {
        let (kind, mask) = (place % 3, MASKS[place as usize / 3 % 6]);
        let first = Cut::new(place, kind, mask);
        let second = Cut::new(252 - place, (kind + 1) % 3, mask);
        left_out += 2 - check([1, 1, 1], &[first, second]);
    }
    // After the step of the sequence quad the new bank runs.
    assert_eq!(left_out, 2);
}

/// Start-ups of the old bank and of the new one, cut after each number of stores, once and twice.
#[test]
fn cut_start_ups() {
    for place in [19, 26, 130, 250, 251, 252] {
        for stores in 0..7 {
            for start_ups in [vec![stores], vec![stores, 4], vec![6, stores, stores]] {
                let mask = MASKS[place as usize % 6];
                let mut cut = Cut::new(place, stores % 3, mask);
                cut.start_ups = start_ups;
                check([1, 1, 1], &[cut]);
            }
        }
    }
}

/// Lists of up to six cuts of small signs, with reads and cut start-ups among them.
#[test]
fn cuts_again_and_again() {
    let mut random = Random::new(4);
    let (mut made, mut left_out) = (0, 0);
    for number in 0..120 {
        let numbers = [[1, 1, 1], [1, 2, 6], [2, 2, 3]][number % 3];
        let total = total(&Sign::fresh(numbers, None).geometry);
        let count = random.between(2, 6);
        let cuts = (0..count).map(|_| Cut::random(&mut random, total));
        let cuts: Vec<Cut> = cuts.collect();
        let counted = check(numbers, &cuts);
        made += counted;
        left_out += cuts.len() - counted;
    }
    assert!(made > 250 && left_out > 50, "{made} {left_out}");
}

/// The options of a cut may stand anywhere among its arguments.
#[test]
fn where_the_options_stand() {
    let printed = |arguments: &str| {
        let arguments: Vec<&str> = arguments.split(' ').collect();
        run(&arguments).printed()
    };
    let expected = printed(
        "cut 1 1 1 19 1 FF --cut-start-up 2 --read 1D00008C --then 250 2 F --cut-start-up 0",
    );
    for arguments in [
        "cut --cut-start-up 2 --read 1D00008C 1 1 1 19 1 FF --then --cut-start-up 0 250 2 F",
        "cut 1 --read 1D00008C 1 1 19 --cut-start-up 2 1 FF --then 250 --cut-start-up 0 2 F",
    ] {
        assert_eq!(printed(arguments), expected, "{arguments}");
    }
}

/// A cut in which no turn is done, made again and again, changes nothing.
#[test]
fn many_cuts() {
    let cuts = vec![Cut::new(0, 0, [0; 4]); 40];
    assert_eq!(check([1, 1, 1], &cuts), 40);
}
