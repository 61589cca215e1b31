//! A sign in the outside model, and its picture.

use model::device::{protected, Device};
use model::flash::{flash_read, reset};
use model::geometry::{Bank, Banks, Geometry, Kind, Side};
use model::script::{play_records, Record};
use model::sequence::{low_half, new_quad, Reason};
use model::smallest::{smallest, Bench};
use model::store::{cut_start_up, start_up, start_up_stores};
use model::update::{turn, update_start};
use model::write_script::{script_bytes, write_script};
use model::Answer;

pub const LEGEND: &str = "o old   . blank   ~ partly written   n new   ^ protected   * runs\n";

#[derive(Clone)]
pub struct Sign {
    numbers: [u32; 3],
    pub geometry: Geometry,
    pub device: Device,
    pub banks: [Vec<u32>; 2],
    /// The banks before the update or the play, and which of them runs.
    before: [Vec<u32>; 2],
    pub runs_before: Bank,
    /// What the other bank must come to.
    pub new: Vec<u32>,
    pub image: Vec<u32>,
    /// Whether the new bank is known, which it is not on the play program's bench.
    new_is_known: bool,
    /// Whether an update erased each page of the new bank.
    erased: Vec<bool>,
    /// Why the last reset put its bank lower.
    pub why: &'static str,
}

/// Words of a bank that no file gives.
fn made_up(geometry: &Geometry, first: u32) -> Vec<u32> {
    (first..first + geometry.bank_words()).collect()
}

fn with_sequence(geometry: &Geometry, mut bank: Vec<u32>, low: u16) -> Vec<u32> {
    let first = geometry.sequence_index();
    bank[first..first + 4].copy_from_slice(&new_quad(low - 1));
    bank
}

/// Notes the page of an erase that ended between two moments.
fn note_erase(geometry: &Geometry, before: Device, after: Device, erased: &mut [bool]) {
    if before.running() && !after.running() && before.nvmop() == 4 {
        let location = geometry.locate(before.launched.address).expect("a page");
        let page = geometry.word_index(location) / geometry.page_words() as usize;
        erased[page] = true;
    }
}

impl Sign {
    /// "bank 1 runs with the sequence number 2, bank 2 holds an older firmware with the sequence number 1"
    pub fn fresh(numbers: [u32; 3], image: Option<Vec<u32>>) -> Sign {
        let geometry = Geometry::new(numbers).expect("a sign");
        let old = with_sequence(&geometry, made_up(&geometry, 0x0200_0000), 2);
        let older = with_sequence(&geometry, made_up(&geometry, 0x0100_0000), 1);
        let sign = Sign::started(numbers, [old, older], image);
        assert_eq!(sign.runs_before, Bank::One);
        assert_eq!(sign.new[geometry.sequence_index()], 0xFFFC_0003);
        sign
    }

    /// A sign with given banks after power-on and start-up.
    pub fn started(numbers: [u32; 3], banks: [Vec<u32>; 2], image: Option<Vec<u32>>) -> Sign {
        let geometry = Geometry::new(numbers).expect("a sign");
        let image = image.unwrap_or_else(|| made_up(&geometry, 0x0300_0000));
        let mut sign = Sign {
            numbers,
            geometry,
            device: Device::reset_values(),
            before: banks.clone(),
            runs_before: Bank::One,
            banks,
            new: image.clone(),
            image,
            new_is_known: true,
            erased: vec![false; geometry.pages() as usize],
            why: "",
        };
        sign.runs_before = sign.restart(0, [0; 4]);
        let first = geometry.sequence_index();
        let quad = new_quad(low_half(sign.old()[first]));
        sign.new[first..first + 4].copy_from_slice(&quad);
        sign
    }

    /// The bank that runs before the update, as it was then.
    pub fn old(&self) -> &[u32] {
        &self.before[self.runs_before.number() as usize - 1]
    }

    /// Both banks after the update: the old one as it was, the other as the image.
    pub fn updated(&self) -> [Vec<u32>; 2] {
        let (old, new) = (self.old().to_vec(), self.new.clone());
        match self.runs_before {
            Bank::One => [old, new],
            Bank::Two => [new, old],
        }
    }

    /// "all ones but bank 1's sequence word 0xFFFE0001, no SRAM, after power-on"
    pub fn bench() -> Sign {
        let numbers = [1, 1, 1];
        let geometry = Geometry::new(numbers).expect("a sign");
        let blank = vec![!0; geometry.bank_words() as usize];
        let banks = [with_sequence(&geometry, blank.clone(), 1), blank.clone()];
        Sign {
            numbers,
            geometry,
            device: Device::reset_values(),
            before: banks.clone(),
            runs_before: Bank::One,
            banks,
            new: blank.clone(),
            image: blank,
            new_is_known: false,
            erased: vec![false; 2],
            why: "",
        }
    }

    /// Plays records; gives what is printed.
    pub fn play(&mut self, records: &[Record]) -> String {
        let [one, two] = &mut self.banks;
        let mut banks = Banks { one, two };
        play_records(self.numbers, &mut self.device, &mut banks, &[], records)
    }

    /// The smallest script that shows a number, or why it is refused.
    pub fn smallest(&self, script: &[u8], number: u32) -> Answer<Vec<u8>> {
        let bench = Bench {
            numbers: self.numbers,
            device: self.device,
            banks: [&self.banks[0], &self.banks[1]],
            sram: &[],
        };
        let ([mut one, mut two], mut result) = (self.banks.clone(), script.to_vec());
        let (one, two) = (&mut one, &mut two);
        let mut scratch = Banks { one, two };
        let records = smallest(&bench, &mut scratch, script, number, &mut result)?;
        result.truncate(8 * records as usize);
        Ok(result)
    }

    /// The update as a script, or why it is refused.
    pub fn script(&self) -> Answer<Vec<u8>> {
        let [mut one, mut two] = self.banks.clone();
        let (one, two) = (&mut one, &mut two);
        let banks = Banks { one, two };
        let mut script = vec![0; script_bytes(&self.geometry) as usize];
        write_script(self.numbers, &self.device, &banks, &self.image, &mut script)?;
        Ok(script)
    }

    /// A reset and a start-up; the bank that runs.
    pub fn restart(&mut self, kind: u32, mask: [u32; 4]) -> Bank {
        self.reset(kind, mask);
        self.start_up()
    }

    pub fn reset(&mut self, kind: u32, mask: [u32; 4]) {
        let [one, two] = &mut self.banks;
        let mut banks = Banks { one, two };
        let restart = reset(self.numbers, self.device, &mut banks, &[], kind, mask);
        let restart = restart.expect("a reset");
        self.why = match restart.reason {
            Reason::Higher => "its sequence number is the higher one",
            Reason::Equal => "both banks have the same sequence number",
            Reason::OnlyOneValid => "the other bank has no valid sequence word",
            Reason::NoneValid => "no bank has a valid sequence word",
        };
        self.device = restart.device;
    }

    /// A completed start-up; the bank that runs.
    pub fn start_up(&mut self) -> Bank {
        self.device = start_up(self.numbers, self.device).expect("a start-up");
        self.device.running_bank().expect("a bank that runs")
    }

    /// The first stores of a start-up; how many are done, and how many it has.
    pub fn cut_start_up(&mut self, count: u32) -> (u32, u32) {
        let all = start_up_stores(&self.device).len() as u32;
        let device = cut_start_up(self.numbers, self.device, count);
        self.device = device.expect("a start-up");
        (count.min(all), all)
    }

    /// The total, where the update is accepted.
    pub fn start(&self) -> Answer<u32> {
        let [mut one, mut two] = self.banks.clone();
        let (one, two) = (&mut one, &mut two);
        let banks = Banks { one, two };
        let (_, total) = update_start(self.numbers, &self.device, &banks, &self.image)?;
        Ok(total)
    }

    /// Turns up to a place, from another.
    pub fn turns(&mut self, from: u32, to: u32) {
        let [one, two] = &mut self.banks;
        let mut banks = Banks { one, two };
        for place in from..to {
            let (numbers, device) = (self.numbers, self.device);
            let turned = turn(numbers, device, &mut banks, &self.image, &[], place);
            self.device = turned.expect("a turn").device;
            note_erase(&self.geometry, device, self.device, &mut self.erased);
        }
    }

    /// A flash read without SRAM: the word, and for how many steps it waited. An update erases pages and programs quads.
    pub fn read(&mut self, address: u32) -> (u32, Option<u32>) {
        let length = match self.device.nvmop() {
            4 => self.geometry.page_quads(),
            _ => 1,
        };
        let (left, before) = (length - self.device.step_number, self.device);
        let [one, two] = &mut self.banks;
        let mut banks = Banks { one, two };
        let read = flash_read(self.numbers, self.device, &mut banks, &[], address);
        let read = read.expect("a flash read");
        self.device = read.device;
        note_erase(&self.geometry, before, self.device, &mut self.erased);
        (read.word, read.event.then_some(left))
    }

    pub fn picture(&self) -> String {
        let mut text = String::from("        boot  program\n");
        for bank in [Bank::One, Bank::Two] {
            let runs = self.device.running_bank() == Some(bank);
            let runs = if runs { '*' } else { ' ' };
            let mut label = format!("bank {}{runs} ", bank.number());
            // The program pages from the 65th on stand in a row of their own.
            for first in (0..self.geometry.program_pages).step_by(64) {
                text += &self.row(&label, first, |kind, page| self.contents(bank, kind, page));
                label = " ".repeat(8);
                let marks = self.row(&label, first, |kind, page| self.mark(bank, kind, page));
                if marks != "\n" {
                    text += &marks;
                }
            }
        }
        text
    }

    fn row(&self, label: &str, first: u32, character: impl Fn(Kind, u32) -> char) -> String {
        let mut row = String::from(label);
        if first == 0 {
            row.extend((0..self.geometry.boot_pages).map(|page| character(Kind::Boot, page)));
        }
        row += &" ".repeat(14 - row.len());
        let program_pages = first..self.geometry.program_pages.min(first + 64);
        row.extend(program_pages.map(|page| character(Kind::Program, page)));
        row.truncate(row.trim_end().len());
        row + "\n"
    }

    fn contents(&self, bank: Bank, kind: Kind, page: u32) -> char {
        let number = match kind {
            Kind::Boot => page,
            Kind::Program => self.geometry.boot_pages + page,
        };
        let words = self.geometry.page_words();
        let range = (number * words) as usize..((number + 1) * words) as usize;
        let is_blank = |words: &[u32]| words.iter().all(|word| *word == 0xFFFF_FFFF);
        let index = bank.number() as usize - 1;
        let (is, old) = (
            &self.banks[index][range.clone()],
            &self.before[index][range.clone()],
        );
        let is_new = match self.new_is_known {
            true => is == &self.new[range],
            false => !is.chunks(4).any(is_blank),
        };
        let is_erased = bank != self.runs_before && self.erased[number as usize];
        match is {
            _ if is_new && is_erased => 'n',
            _ if is_blank(is) => '.',
            _ if is == old => 'o',
            _ if is_new => 'n',
            _ => '~',
        }
    }

    fn mark(&self, bank: Bank, kind: Kind, page: u32) -> char {
        let lower = self.device.bank_at(kind, Side::Lower) == bank;
        let side = if lower { Side::Lower } else { Side::Upper };
        if protected(&self.geometry, &self.device, kind, side, page) {
            '^'
        } else {
            ' '
        }
    }
}
