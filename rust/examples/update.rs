//! An update of a small sign whose supply fails inside a flash step, and the same update again to its end.
//!
//! It prints what `examples/update.c` of the repository prints.

use yohrundel::reset_kind::{BROWN_OUT, POWER_ON};
use yohrundel::{Bank, Decline, Geometry, Sign};

const GEOMETRY: Geometry = Geometry { q: 1, b: 1, p: 1 };

/// The words of a bank, and the index of its sequence word.
const WORDS: u32 = 64;
const SEQUENCE: usize = 28;

/// The place of the step that programs the sequence quad, the last of the update.
const CUT: u32 = 250;

/// The sign, and the lines about it.
struct Report {
    sign: Sign,
    text: String,
}

fn filled(first: u32) -> Vec<u32> {
    (first..first + WORDS).collect()
}

impl Report {
    /// Bank 1 with T = 1 beside an older bank 2.
    fn new() -> Report {
        let (mut one, mut two) = (filled(0x0100_0000), filled(0));
        one[SEQUENCE] = 0xFFFE_0001;
        two[SEQUENCE] = 0xFFFF_0000;
        Report {
            sign: Sign::power_on(GEOMETRY, [one, two]),
            text: String::new(),
        }
    }

    fn print(&mut self, line: &str) {
        self.text.push_str(line);
        self.text.push('\n');
    }

    fn print_sign(&mut self, stage: &str) {
        let (con, [one, two]) = (self.sign.device.nvmcon, &self.sign.banks);
        let (one, two) = (one[SEQUENCE], two[SEQUENCE]);
        self.print(&format!(
            "{stage}: NVMCON {con:08X}, sequence words {one:08X} {two:08X}"
        ));
    }

    /// A reset and a start-up; the bank that runs then.
    fn restart(&mut self, kind: u32, mask: [u32; 4]) -> Result<Option<Bank>, Decline> {
        self.sign.reset(&[], kind, mask)?;
        self.print_sign("reset");
        self.sign.start_up()?;
        let bank = self.sign.running_bank();
        let number = bank.map_or(0, Bank::number);
        self.print(&format!("start-up: bank {number} runs"));
        Ok(bank)
    }

    /// The update's start; gives its total.
    fn start(&mut self, image: &[u32]) -> Result<u32, Decline> {
        let total = self.sign.update_start(image)?.total;
        self.print(&format!("update start: {total} actions"));
        Ok(total)
    }

    /// Turns from place 0 up to a place; the number of events.
    fn turn_until(&mut self, image: &[u32], last: u32) -> Result<u32, Decline> {
        let (mut place, mut events) = (0, 0);
        while place < last {
            let outcome = self.sign.turn(image, &[], place)?;
            place = outcome.place;
            events += u32::from(outcome.event);
        }
        self.print_sign("turns");
        Ok(events)
    }
}

/// Runs all of it; gives its lines.
fn run() -> Result<String, Decline> {
    let mut report = Report::new();
    let old = report.sign.clone();
    let mut image = filled(0x0200_0000);

    assert_eq!(report.restart(POWER_ON, [0; 4])?, Some(Bank::One));
    let declined = report.sign.update_start(&image[1..]);
    let number = declined.expect_err("the image is too short").number();
    report.print(&format!(
        "update start with a short image: declined by {number}"
    ));

    report.start(&image)?;
    report.turn_until(&image, CUT)?;
    assert!(report.sign.device.operation_runs());
    // Of the sequence quad only the low half of the first word gets through.
    let torn = [0x0000_FFFF, 0, 0, 0];
    assert_eq!(report.restart(BROWN_OUT, torn)?, Some(Bank::One));
    assert_eq!(report.sign.bank(Bank::One), old.bank(Bank::One));

    let total = report.start(&image)?;
    let events = report.turn_until(&image, total)?;
    assert!(report.sign.turn(&image, &[], total)?.done);
    assert_eq!(report.restart(POWER_ON, [0; 4])?, Some(Bank::Two));
    // Exactly the image, with the new sequence quad in the place of its last boot quad.
    image[SEQUENCE..SEQUENCE + 4].copy_from_slice(&[0xFFFD_0002, !0, !0, !0]);
    assert_eq!(report.sign.bank(Bank::Two), image);
    report.print(&format!("bank 2 is the image, after {events} events"));
    Ok(report.text)
}

fn main() -> Result<(), Decline> {
    print!("{}", run()?);
    Ok(())
}

#[cfg(test)]
#[test]
fn prints_what_the_model_gives() {
    assert_eq!(run().unwrap(), include_str!("../../examples/update.out"));
}
