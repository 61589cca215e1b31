//! The page sheet of the largest sign.

use model::device::Device as OutsideDevice;
use model::generate::old_bank_one;
use model::geometry::{Banks, Geometry as OutsideGeometry};
use model::sheet;
use yohrundel::{page_sheet, Device, Geometry};

use crate::rounds::{report, rounds, Side};

/// Q, B and P.
const LARGEST: [u32; 3] = [128, 5, 128];

/// The sheets of a round.
const SHEETS: u32 = 16;

/// The archive's sheet.
struct Archive<'a> {
    sign: Geometry,
    banks: &'a [Vec<u32>; 2],
    buffer: Vec<u8>,
}

/// The outside model's sheet.
struct Outside<'a> {
    banks: Banks<'a>,
    buffer: Vec<u8>,
}

impl Side for Archive<'_> {
    fn restart(&mut self) {}

    fn run(&mut self, _: u32) {
        let ([one, two], device) = (self.banks, Device::power_on());
        let sheet = page_sheet(self.sign, device, one, two, &mut self.buffer);
        assert_eq!(sheet, Ok(self.buffer.len()));
    }
}

impl Side for Outside<'_> {
    fn restart(&mut self) {}

    fn run(&mut self, _: u32) {
        let device = OutsideDevice::reset_values();
        let sheet = sheet::page_sheet(LARGEST, &device, &self.banks, &mut self.buffer);
        assert_eq!(sheet, Ok(self.buffer.len() as u32));
    }
}

/// The archive's page sheet beside the model's.
pub fn beside_the_model() {
    let [q, b, p] = LARGEST;
    let sign = Geometry { q, b, p };
    let outside = OutsideGeometry::new(LARGEST).expect("a sign");
    let banks = old_bank_one(&outside, 1);
    let [mut one, mut two] = banks.clone();
    let buffer = vec![0; sign.sheet_bytes().expect("a sign")];
    let mut archive = Archive {
        sign,
        banks: &banks,
        buffer: buffer.clone(),
    };
    let (one, two) = (&mut one[..], &mut two[..]);
    let banks = Banks { one, two };
    let mut outside = Outside { banks, buffer };
    let times = rounds([&mut archive, &mut outside], SHEETS);
    assert!(archive.buffer == outside.buffer, "the sheet");
    let bytes = outside.buffer.len();
    println!("sheet of {bytes} bytes: it is the model's");
    let quads = outside.banks.one.len() as u32 / 2;
    report(
        "page sheet beside the model",
        &times,
        "quad",
        [SHEETS * quads; 2],
    );
}
