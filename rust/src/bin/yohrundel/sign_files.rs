//! The sizes of a sign as an option, and the files that give it its banks and the image of its update.

use std::ffi::OsStr;

use yohrundel::Geometry;

use crate::arguments::{judged, Arguments};
use crate::failure::Failure;
use crate::files;
use crate::options::{OptionSpec, FILE};
use crate::sign::{made_up_image, Sign};

/// The sizes of the sign that a script is played on.
pub const SIZES: OptionSpec = OptionSpec::value(
    "--sizes",
    "Q,B,P",
    "plays on a sign of these sizes, after power-on and start-up",
);

/// The file of bank 1.
pub const BANK1: OptionSpec = OptionSpec::value(
    "--bank1",
    FILE,
    "the file of the sign's bank 1, as IMAGE of yohrundel update; it needs --bank2",
);

/// The file of bank 2.
pub const BANK2: OptionSpec = OptionSpec::value(
    "--bank2",
    FILE,
    "the file of its bank 2; without these two the banks are made up, as for yohrundel update",
);

/// The image of an update, where it is no positional argument.
pub const IMAGE: OptionSpec = OptionSpec::value(
    "--image",
    FILE,
    "the file of the image, as IMAGE of yohrundel update; without it the image is made up",
);

/// What the option --sizes says.
pub fn sizes(arguments: &Arguments) -> Result<Option<Geometry>, Failure> {
    let words = "three numbers with commas between";
    let sizes = arguments.value_form(&SIZES, words, read_sizes)?;
    sizes.map(judged).transpose()
}

/// Q, B and P.
fn read_sizes(text: &str) -> Option<Geometry> {
    let numbers: Result<Vec<u32>, _> = text.split(',').map(str::parse).collect();
    match numbers.ok()?[..] {
        [q, b, p] => Some(Geometry { q, b, p }),
        _ => None,
    }
}

/// What the options --bank1 and --bank2 name.
pub struct BankFiles<'a>(Option<[&'a OsStr; 2]>);

impl<'a> BankFiles<'a> {
    /// Both of the options, or none.
    pub fn of(arguments: &Arguments<'a>) -> Result<BankFiles<'a>, Failure> {
        match (arguments.value(&BANK1), arguments.value(&BANK2)) {
            (None, None) => Ok(BankFiles(None)),
            (Some(one), Some(two)) => Ok(BankFiles(Some([one, two]))),
            _ => Err(Failure::arguments("--bank1 and --bank2 go together")),
        }
    }

    pub fn are_given(&self) -> bool {
        self.0.is_some()
    }

    /// A sign with these banks after power-on and start-up; without them it is a fresh one.
    pub fn sign(&self, geometry: Geometry, path: Option<&OsStr>) -> Result<Sign, Failure> {
        let image = image(geometry, path)?;
        let sign = match self.0 {
            Some([one, two]) => {
                let banks = [files::bank(geometry, one)?, files::bank(geometry, two)?];
                Sign::started(geometry, banks, image)
            }
            None => Sign::fresh(geometry, image),
        };
        Ok(sign?)
    }
}

/// The image of a file, or a made-up one.
pub fn image(geometry: Geometry, path: Option<&OsStr>) -> Result<Vec<u32>, Failure> {
    match path {
        Some(path) => files::bank(geometry, path),
        None => Ok(made_up_image(geometry)?),
    }
}
