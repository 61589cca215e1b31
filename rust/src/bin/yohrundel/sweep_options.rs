//! What the options of a sweep say.

use std::time::{SystemTime, UNIX_EPOCH};

use yohrundel::Geometry;

use crate::arguments::{decimal, Arguments, DECIMAL_WORDS};
use crate::failure::Failure;
use crate::options::OptionSpec;
use crate::resets::{read_kind, read_mask, Mask, KINDS};
use crate::sweep_cuts::Cuts;
use crate::sweep_places::{places_of_a_minute, Sample};

/// The torn masks.
pub const MASK_LIST: OptionSpec = OptionSpec::value(
    "--masks",
    "LIST",
    "the masks, each as MASK of yohrundel cut, with : between them. Without it they are 0, \
     FFFFFFFF, 55555555, AAAAAAAA, 12345678,9ABCDEF0,0F1E2D3C,4B5A6978 and FFFFFFFF,0,0,0",
);

/// The kinds of reset.
pub const KIND_LIST: OptionSpec = OptionSpec::value(
    "--kinds",
    "LIST",
    "the kinds of reset, each as KIND of yohrundel cut, with commas between them; without it all \
     three",
);

/// How many places are cut.
pub const SAMPLE: OptionSpec = OptionSpec::value(
    "--sample",
    "N",
    "cuts at N places: the last three, the only ones where a cut may leave the new bank, and \
     others that are drawn by chance. --sample all cuts at all places. Without it these are all, \
     or as many as take about a minute on two cores",
);

/// What the places are drawn with.
pub const SEED: OptionSpec = OptionSpec::value(
    "--seed",
    "S",
    "draws the places that this number gives, from 0 to 4294967295. Without it the time gives one",
);

/// One of several parts.
pub const PART: OptionSpec = OptionSpec::value(
    "--part",
    "K/N",
    "does part K of N, from 1 to N. Each place is in exactly one part. A sample needs --seed, the \
     same for all parts",
);

/// The masks where no option names others, those of the stored cuts: none, all, each second bit, four different words, the first word.
const MASKS: [Mask; 6] = [
    [0; 4],
    [!0; 4],
    [0x5555_5555; 4],
    [0xAAAA_AAAA; 4],
    [0x1234_5678, 0x9ABC_DEF0, 0x0F1E_2D3C, 0x4B5A_6978],
    [!0, 0, 0, 0],
];

/// What the options say.
pub struct Settings {
    pub cuts: Cuts,
    /// How many places; none where the size of the sign decides.
    places: Option<u32>,
    seed: Option<u32>,
    /// Which part, and of how many.
    pub part: Part,
}

/// A part by its number from 1.
#[derive(Clone, Copy, Debug, PartialEq, Eq)]
pub struct Part {
    pub number: u32,
    pub of: u32,
}

impl Settings {
    pub fn of(arguments: &Arguments) -> Result<Settings, Failure> {
        let masks = "masks, each once, with : between them";
        let masks = arguments.value_form(&MASK_LIST, masks, |text| list(text, ':', read_mask))?;
        let kinds = "kinds of reset, each once, with commas between them";
        let kinds = arguments.value_form(&KIND_LIST, kinds, |text| list(text, ',', read_kind))?;
        let part = arguments.value_form(&PART, "K/N with K from 1 to N", read_part)?;
        let all = "a number of places from 1 on, or all";
        Ok(Settings {
            cuts: Cuts {
                masks: masks.unwrap_or(MASKS.into()),
                kinds: kinds.unwrap_or(KINDS.into()),
            },
            places: arguments.value_form(&SAMPLE, all, read_places)?,
            seed: arguments.value_form(&SEED, DECIMAL_WORDS, decimal)?,
            part: part.unwrap_or(Part { number: 1, of: 1 }),
        })
    }

    /// The places that are drawn of an update's, none where all are cut.
    pub fn sample(&self, geometry: Geometry, total: u32) -> Result<Option<Sample>, Failure> {
        let places = match self.places {
            Some(places) => places,
            None => places_of_a_minute(geometry, self.cuts.count())?,
        };
        if places > total {
            return Ok(None);
        }
        let seed = match self.seed {
            Some(seed) => seed,
            None if self.part.of == 1 => time_seed(),
            None => {
                let reason = "a part of a sample needs --seed, the same for all parts";
                return Err(Failure::arguments(reason));
            }
        };
        Ok(Some(Sample { places, seed }))
    }
}

/// At least one value, and none twice.
fn list<T: PartialEq>(text: &str, between: char, read: fn(&str) -> Option<T>) -> Option<Vec<T>> {
    let values: Option<Vec<T>> = text.split(between).map(read).collect();
    let values = values?;
    let is_new = |number: usize| !values[..number].contains(&values[number]);
    (0..values.len()).all(is_new).then_some(values)
}

fn read_places(text: &str) -> Option<u32> {
    match text {
        "all" => Some(u32::MAX),
        number => decimal(number).filter(|places| *places > 0),
    }
}

fn read_part(text: &str) -> Option<Part> {
    let (number, of) = text.split_once('/')?;
    let (number, of) = (decimal(number)?, decimal(of)?);
    (1..=of).contains(&number).then_some(Part { number, of })
}

/// A seed that is seldom the same.
fn time_seed() -> u32 {
    let time = SystemTime::now().duration_since(UNIX_EPOCH);
    time.map_or(0, |time| time.as_nanos() as u32)
}
