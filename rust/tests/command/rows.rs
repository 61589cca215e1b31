//! `yohrundel row`: every byte that it prints, beside the outside model.

use model::device::Device;
use model::flash::reset;
use model::geometry::{Bank, Banks};
use model::schedule::{schedule, Common, Row, Sign as Record};
use model::store::start_up;
use model::update::total;

use crate::outside::Sign;
use crate::run::{bytes, file, run};

/// A number of calls in words.
fn calls_text(calls: u32) -> String {
    let noun = if calls == 1 { "call" } else { "calls" };
    format!("{calls} {noun}")
}

/// A row in the model, and what each sign did after each call: w waits, # its operation runs, . neither, blank done.
pub struct Supply {
    sign: Sign,
    numbers: [u32; 3],
    pub row: Row,
    store: Vec<u32>,
    pub total: u32,
    pub states: Vec<Vec<char>>,
    pub together: Vec<usize>,
}

impl Supply {
    /// So many equal signs.
    pub fn new(sign: Sign, signs: u32) -> Supply {
        let geometry = sign.geometry;
        let words = geometry.bank_words();
        let record = |number| Record {
            device: sign.device,
            place: 0,
            starts: [2 * number * words, 2 * number * words + words],
        };
        Supply {
            row: Row {
                signs: (0..signs).map(record).collect(),
                queue: Vec::new(),
                last: signs - 1,
            },
            store: sign.banks.concat().repeat(signs as usize),
            total: total(&geometry),
            states: vec![Vec::new(); signs as usize],
            together: Vec::new(),
            numbers: geometry.numbers(),
            sign,
        }
    }

    /// Whether a call served a sign.
    fn call(&mut self, k: u32) -> bool {
        let common = Common {
            numbers: self.numbers,
            image: &self.sign.image,
            sram: &[],
        };
        let served = schedule(&common, k, &mut self.row, &mut self.store);
        served.expect("an accepted row").is_some()
    }

    pub fn run(&mut self, k: u32, calls: u32) {
        for _ in 0..calls {
            assert!(self.call(k));
            self.together.push(self.row.running());
            for (number, sign) in self.row.signs.iter().enumerate() {
                let state = match sign {
                    _ if self.row.queue.contains(&(number as u32)) => 'w',
                    sign if sign.device.running() => '#',
                    sign if sign.place == self.total => ' ',
                    _ => '.',
                };
                self.states[number].push(state);
            }
        }
    }

    /// The bank that a sign runs after a reset and start-up: the old one, whole, or exactly the new.
    pub fn restart(&self, number: usize) -> Bank {
        let sign = &self.row.signs[number];
        let words = self.sign.image.len();
        let [mut one, mut two] = sign
            .starts
            .map(|start| self.store[start as usize..][..words].to_vec());
        let mut banks = Banks {
            one: &mut one,
            two: &mut two,
        };
        let cut = reset(self.numbers, sign.device, &mut banks, &[], 0, [0; 4]).expect("a reset");
        let device: Device = start_up(self.numbers, cut.device).expect("a start-up");
        let old = self.sign.runs_before;
        let kept = if old == Bank::One { &one } else { &two };
        assert_eq!(kept, self.sign.old());
        let runs = device.running_bank().expect("a bank that runs");
        assert!(runs == old || [one, two] == self.sign.updated());
        runs
    }

    /// A line for each sign and one for the operations that ran together, of at most so many columns.
    fn picture(&self, width: usize) -> String {
        let calls = self.together.len();
        let columns = calls.min(width - 9);
        let column = |call: usize| call * columns / calls;
        let mut text = String::new();
        for (number, states) in self.states.iter().enumerate() {
            let of = |at: usize| (0..calls).filter(move |call| column(*call) == at);
            let line: String = (0..columns)
                .map(|at| most_often(of(at).map(|call| states[call]).collect()))
                .collect();
            text += format!("sign {number:<3} {line}").trim_end();
            text.push('\n');
        }
        text += "together ";
        for at in 0..columns {
            let of = (0..calls).filter(|call| column(*call) == at);
            let most = of.map(|call| self.together[call]).max().expect("a call");
            text.push(char::from_digit(most as u32, 36).expect("a digit"));
        }
        text + "\n"
    }

    fn legend(&self, width: usize) -> String {
        let calls = self.together.len();
        let each = match calls / calls.min(width - 9).max(1) {
            0 | 1 => String::from("one call"),
            each => format!("about {each} calls"),
        };
        format!(
            "w waits   # its operation runs   . between operations   blank done\n\
             A column is {each}: what a sign did most often, and the most\n\
             operations that ran together, where a is 10 and w is 32.\n"
        )
    }

    /// The longest run of calls that a sign waited through, and the sign, the first to get there of several as long.
    pub fn longest(&self) -> Option<(u32, usize)> {
        let (mut longest, mut waits) = ((0, 0), vec![0; self.states.len()]);
        for call in 0..self.together.len() {
            for (number, states) in self.states.iter().enumerate() {
                waits[number] = if states[call] == 'w' {
                    waits[number] + 1
                } else {
                    0
                };
                if waits[number] > longest.0 {
                    longest = (waits[number], number);
                }
            }
        }
        Some(longest).filter(|(calls, _)| *calls > 0)
    }

    fn longest_text(&self) -> String {
        match self.longest() {
            None => String::from("No sign waited."),
            Some((calls, sign)) => {
                let calls = calls_text(calls);
                format!("The longest wait was {calls}, of sign {sign}.")
            }
        }
    }

    pub fn most_together(&self) -> usize {
        self.together.iter().copied().max().unwrap_or(0)
    }
}

/// The first of w, #, . and blank that is there most often.
fn most_often(states: Vec<char>) -> char {
    let count = |state: &char| states.iter().filter(|is| *is == state).count();
    let order = ['w', '#', '.', ' '];
    let most = order.iter().map(count).max();
    let first = order.into_iter().find(|state| Some(count(state)) == most);
    first.expect("a state")
}

fn head(signs: u32, k: u32, total: u32) -> String {
    let hang = if signs == 1 {
        "sign hangs"
    } else {
        "signs hang"
    };
    let operations = match k {
        1 => "operation at a time",
        _ => "operations together",
    };
    format!(
        "{signs} {hang} on a supply that bears {k} {operations}.\n\
         Each update is accepted and has {total} actions.\n"
    )
}

/// What a row of equal signs prints in lines of so many columns.
pub fn expected(sign: Sign, [signs, k]: [u32; 2], cut: Option<u32>, width: usize) -> String {
    let (old, mut supply) = (sign.runs_before, Supply::new(sign, signs));
    let total = supply.total;
    let calls = cut.unwrap_or(signs * total);
    supply.run(k, calls);
    let end = match cut {
        Some(_) => "the supply fails",
        None => "the row is idle",
    };
    let (calls, most) = (calls_text(calls), supply.most_together());
    let (picture, legend) = (supply.picture(width), supply.legend(width));
    let (head, longest) = (head(signs, k, total), supply.longest_text());
    let mut text = format!(
        "{head}\n{picture}\n{legend}\n\
         At most {most} ran together. {longest}\n\n\
         After {calls} {end}. After a power-on reset and start-up of all:\n"
    );
    for number in 0..signs as usize {
        let place = supply.row.signs[number].place;
        let bank = supply.restart(number);
        let runs = match bank == old {
            true => "the old one, with every word",
            false => "exactly the new one",
        };
        let bank = bank.number();
        text += &format!("sign {number:<2} at place {place}: bank {bank} runs, {runs}\n");
    }
    text
}

fn check(numbers: [u32; 3], row: [u32; 2], cut: Option<u32>) {
    let [q, b, p] = numbers;
    let mut line = format!("row {} {} {q} {b} {p}", row[0], row[1]);
    if let Some(cut) = cut {
        line += &format!(" --cut {cut}");
    }
    let arguments: Vec<&str> = line.split(' ').collect();
    let printed = run(&arguments).printed();
    let expected = expected(Sign::fresh(numbers, None), row, cut, 72);
    assert_eq!(printed, expected, "{line}");
    assert!(printed.lines().all(|line| line.len() <= 80), "{line}");
}

#[test]
fn rows_to_their_end() {
    for (signs, k) in [
        (1, 1),
        (2, 1),
        (2, 2),
        (3, 2),
        (5, 1),
        (32, 1),
        (32, 12),
        (32, 32),
    ] {
        check([1, 1, 1], [signs, k], None);
    }
    check([4, 1, 2], [4, 3], None);
    check([1, 2, 3], [3, 1], None);
}

/// Short ones with a call a column, one before any call, and cuts around the last stores of the updates.
#[test]
fn rows_that_are_cut() {
    for cut in [
        0, 1, 2, 40, 63, 64, 126, 400, 998, 1000, 1002, 1004, 1005, 1006, 1007, 1008,
    ] {
        check([1, 1, 1], [4, 1], Some(cut));
        check([1, 1, 1], [4, 3], Some(cut));
    }
    check([1, 1, 1], [32, 20], Some(4_000));
}

#[test]
fn image_of_a_file() {
    let image: Vec<u32> = (0..64).map(|index| 0x0700_0000 + index * index).collect();
    let path = file("row-image", &bytes(&image));
    let path = path.to_str().expect("a name in UTF-8");
    let printed = run(&["row", "2", "1", "1", "1", "1", path]).printed();
    let sign = Sign::fresh([1, 1, 1], Some(image));
    assert_eq!(printed, expected(sign, [2, 1], None, 72));
}
