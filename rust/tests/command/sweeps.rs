//! `yohrundel sweep`: how many cuts leave which bank, beside the outside model.

use model::cuts::MASKS;
use model::geometry::Bank;
use model::random::Random;

use crate::arguments::wrong;
use crate::json::Json;
use crate::objects::{documented, object, printed, sorted};
use crate::outside::Sign;
use crate::run::{run, Ran};
use crate::updates::{mask_text, KINDS};

/// What a sweep is asked for.
pub struct Sweep {
    pub numbers: [u32; 3],
    pub masks: Vec<[u32; 4]>,
    pub kinds: Vec<u32>,
    /// How many places are drawn, and the seed.
    pub sample: Option<[u32; 2]>,
}

/// After how many cuts at a place each bank runs.
fn counts_at(sign: &Sign, sweep: &Sweep) -> [u64; 2] {
    let mut counts = [0; 2];
    for kind in &sweep.kinds {
        for mask in &sweep.masks {
            let mut sign = sign.clone();
            match sign.restart(*kind, *mask) {
                Bank::One => {
                    assert_eq!(sign.banks[0], sign.old());
                    sign.start().expect("it is accepted again");
                    counts[0] += 1;
                }
                Bank::Two => {
                    assert_eq!(sign.banks, sign.updated());
                    counts[1] += 1;
                }
            }
        }
    }
    counts
}

impl Sweep {
    pub fn all(numbers: [u32; 3]) -> Sweep {
        Sweep {
            numbers,
            masks: MASKS.into(),
            kinds: vec![0, 1, 2],
            sample: None,
        }
    }

    fn actions(&self) -> u32 {
        let sign = Sign::fresh(self.numbers, None);
        sign.start().expect("it is accepted")
    }

    /// After how many cuts at all places each bank runs.
    fn counts(&self) -> [u64; 2] {
        let (mut sign, mut counts) = (Sign::fresh(self.numbers, None), [0; 2]);
        let total = self.actions();
        for place in 0..=total {
            let [old, new] = counts_at(&sign, self);
            // A cut leaves the new bank at the last three places alone, which every sample has.
            assert!(new == 0 || place + 3 > total, "{place}");
            counts = [counts[0] + old, counts[1] + new];
            if place < total {
                sign.turns(place, place + 1);
            }
        }
        counts
    }

    /// What a sweep of all parts finds: its places, its cuts, and those that leave the old bank and the new.
    fn found(&self) -> [u64; 4] {
        let [old, new] = self.counts();
        let all = u64::from(self.actions()) + 1;
        let each = (self.kinds.len() * self.masks.len()) as u64;
        assert_eq!(old + new, all * each);
        let places = self.sample.map_or(all, |[places, _]| places.into());
        [places, places * each, places * each - new, new]
    }

    fn arguments(&self) -> String {
        let [q, b, p] = self.numbers;
        let masks: Vec<String> = self.masks.iter().copied().map(mask_text).collect();
        let kinds: Vec<&str> = self
            .kinds
            .iter()
            .map(|kind| KINDS[*kind as usize])
            .collect();
        let (masks, kinds) = (masks.join(":"), kinds.join(","));
        let mut line = format!("sweep {q} {b} {p} --masks {masks} --kinds {kinds}");
        if let Some([places, seed]) = self.sample {
            line += &format!(" --sample {places} --seed {seed}");
        }
        line
    }

    pub fn json(&self) -> Json {
        let [q, b, p] = self.numbers;
        let [places, cuts, old, new] = self.found().map(Json::Number);
        let word = |word: &u32| format!("{word:08X}");
        let mask = |mask: &[u32; 4]| match mask {
            [first, rest @ ..] if rest == &[*first; 3] => word(first),
            words => words.iter().map(word).collect::<Vec<_>>().join(","),
        };
        let masks = self.masks.iter().map(|of| mask(of).as_str().into());
        let kinds = self.kinds.iter().map(|kind| KINDS[*kind as usize].into());
        object([
            ("q", q.into()),
            ("b", b.into()),
            ("p", p.into()),
            ("actions", self.actions().into()),
            ("masks", Json::Array(masks.collect())),
            ("kinds", Json::Array(kinds.collect())),
            ("sample", self.sample.map(|[places, _]| places).into()),
            ("seed", self.sample.map(|[_, seed]| seed).into()),
            ("parts", 1.into()),
            ("part", 1.into()),
            ("places", places),
            ("cuts", cuts),
            ("old", old.clone()),
            ("new", new),
            ("accepted_again", old),
            ("wrong", Json::Null),
        ])
    }

    /// The text, with one blank between all words.
    fn text(&self) -> String {
        let ([q, b, p], total) = (self.numbers, self.actions());
        let [places, cuts, old, new] = self.found();
        let all = total + 1;
        let at = match self.sample {
            None => format!("all {all} places"),
            Some([places, seed]) => format!("{places} of {all} places, drawn with --seed {seed}"),
        };
        let [kinds, masks] =
            [(&self.kinds.len(), "kind"), (&self.masks.len(), "mask")].map(|(count, noun)| {
                match count {
                    1 => format!("1 {noun}"),
                    count => format!("{count} {noun}s"),
                }
            });
        format!(
            "A sign with Q = {q}, B = {b} and P = {p}: its update has {total} actions. \
             The supply was cut at {at}, by {kinds} of reset with {masks} each. \
             places {places} cuts {cuts} the old bank ran, whole {old} \
             the same update was accepted again {old} exactly the new bank ran {new}"
        )
    }
}

pub fn line(text: &str) -> Ran {
    run(&text.split(' ').collect::<Vec<_>>())
}

fn words(text: &str) -> String {
    text.split_whitespace().collect::<Vec<_>>().join(" ")
}

/// Whole sweeps of small signs, as text and as objects.
#[test]
fn sweeps_of_all_places() {
    for numbers in [[1, 1, 1], [1, 2, 6], [2, 2, 1]] {
        let (sweep, [q, b, p]) = (Sweep::all(numbers), numbers);
        let text = line(&format!("sweep {q} {b} {p}")).printed();
        assert!(text.lines().all(|line| line.len() <= 80), "{text}");
        assert_eq!(words(&text), sweep.text());
        assert_eq!(printed(&format!("sweep {q} {b} {p} --json")), sweep.json());
    }
}

/// Masks and kinds of one's own.
#[test]
fn sweeps_with_other_cuts() {
    let mut random = Random::new(71);
    for kinds in [vec![1], vec![2, 0], vec![0, 1, 2]] {
        let mut masks = vec![[0xFFFF_FFFF, random.word(), 0, 1]];
        masks.extend((0..4).map(|_| [0; 4].map(|_: u32| random.word())));
        let sweep = Sweep {
            masks,
            kinds,
            ..Sweep::all([1, 1, 2])
        };
        let arguments = sweep.arguments();
        assert_eq!(words(&line(&arguments).printed()), sweep.text());
        assert_eq!(printed(&format!("{arguments} --json")), sweep.json());
    }
    let numbers = printed("sweep 1 1 1 --kinds 0,2 --masks 0:ff:FFFFFFFF,0,0,0 --json");
    let names = "sweep 1 1 1 --kinds power-on,other --masks 0x0:0000FF:ffffffff,0,0,0x0 --json";
    assert_eq!(numbers, printed(names));
}

/// A sample has as many places as are asked for, the last three among them, and its seed gives it again.
#[test]
fn samples() {
    for sample in [[3, 0], [40, 7], [252, 4_294_967_295]] {
        let sweep = Sweep {
            sample: Some(sample),
            ..Sweep::all([1, 1, 1])
        };
        let arguments = sweep.arguments();
        assert_eq!(words(&line(&arguments).printed()), sweep.text());
        assert_eq!(printed(&format!("{arguments} --json")), sweep.json());
    }
    for all in ["all", "253", "4294967295"] {
        let object = printed(&format!("sweep 1 1 1 --sample {all} --seed 9 --json"));
        assert_eq!(object, Sweep::all([1, 1, 1]).json());
    }
}

/// Without a seed the time gives one, which is printed.
#[test]
fn seeds_that_are_printed() {
    let text = line("sweep 1 1 1 --sample 20").printed();
    let seed = text.split_once("--seed ").expect("a seed").1;
    let seed = seed.split(|letter: char| !letter.is_ascii_digit()).next();
    let seed: u32 = seed.and_then(|seed| seed.parse().ok()).expect("a number");
    let again = line(&format!("sweep 1 1 1 --sample 20 --seed {seed}"));
    assert_eq!(again.printed(), text);
}

/// The largest sign: four places, of which three are the last.
#[test]
fn sample_of_the_largest_sign() {
    let object = printed("sweep 128 5 128 --sample 4 --seed 1 --kinds 0 --masks 0 --json");
    let Json::Object(pairs) = object else {
        panic!("no object");
    };
    let number = |key: &str| {
        pairs
            .iter()
            .find(|(of, _)| of == key)
            .map(|(_, value)| value)
    };
    for (key, expected) in [
        ("actions", 1_907_764),
        ("places", 4),
        ("old", 2),
        ("new", 2),
    ] {
        assert_eq!(number(key), Some(&Json::Number(expected)), "{key}");
    }
}

/// Its keys but for those of a wrong outcome, of which there is none.
#[test]
fn keys() {
    let mut keys = Sweep::all([1, 1, 1]).json().paths();
    keys.extend(["place", "kind", "mask", "ran"].map(|key| format!("wrong.{key}")));
    assert_eq!(sorted(keys), documented("sweep"));
}

/// Values of an option that are not what the words say.
fn not_understood(option: &str, values: &[&str], words: &str) {
    for value in values {
        let reason = format!("the value of {option} is {value:?}, not {words}");
        wrong(&format!("sweep 1 1 1 {option} {value}"), &reason);
    }
}

#[test]
fn values_that_are_not_understood() {
    let words = "masks, each once, with : between them";
    let masks = [
        "",
        "x",
        "0:",
        "0:0",
        "1,2",
        "0;1",
        "0:1,2,3,4,5",
        "7:00000007",
    ];
    not_understood("--masks", &masks, words);
    let words = "kinds of reset, each once, with commas between them";
    let kinds = ["", "3", "0,", "0:1", "0,power-on", "brown"];
    not_understood("--kinds", &kinds, words);
    let words = "a number of places from 1 on, or all";
    let places = ["", "0", "-1", "x", "All", "4294967296"];
    not_understood("--sample", &places, words);
    let words = "a number from 0 to 4294967295";
    not_understood("--seed", &["", "x", "4294967296"], words);
    let words = "K/N with K from 1 to N";
    let parts = [
        "",
        "1",
        "0/1",
        "2/1",
        "1/0",
        "1/2/3",
        "/",
        "x/2",
        "1/4294967296",
    ];
    not_understood("--part", &parts, words);
}

#[test]
fn arguments_that_are_not_understood() {
    wrong("sweep", "Q is missing");
    wrong("sweep 1 1", "P is missing");
    wrong("sweep 1 1 1 1", "\"1\" is one argument too many");
    let reason = "sweep: declined by 1: the quads per row, boot pages or program pages are out of \
                  range: P is 129, not 1 to 128";
    assert_eq!(line("sweep 1 1 129").reason(1), reason);
}

/// Parts of a sample that is drawn by the time would be of different samples.
#[test]
fn parts_of_a_sample_need_a_seed() {
    let reason = "a part of a sample needs --seed, the same for all parts";
    wrong("sweep 1 1 1 --sample 20 --part 1/2", reason);
    wrong("sweep 128 5 128 --part 2/100", reason);
}
