//! `yohrundel play`: what the play program prints, and plays on other signs.

use std::ffi::OsStr;
use std::io::{self, IsTerminal};

use yohrundel::reset_kind::POWER_ON;
use yohrundel::{Decline, Geometry};

use crate::arguments::Arguments;
use crate::causes::{impossible, malformed};
use crate::command::{Command, First};
use crate::failure::{Answer, Failure};
use crate::files;
use crate::options::OptionSpec;
use crate::picture::{legend, picture_of};
use crate::saves::{Saves, SAVE1, SAVE2};
use crate::sign::Sign;
use crate::sign_files::{sizes, BankFiles, BANK1, BANK2, IMAGE, SIZES};
use crate::sign_pages::SignPages;
use crate::wording::runs;

pub const COMMAND: Command = Command {
    name: "play",
    arguments: "FILE",
    first: First::Any,
    summary: "plays a service script",
    details: "\
FILE is a service script of at most 65,536 bytes; - is standard input. It is
played after power-on on two banks with Q = B = P = 1, blank but for bank 1's
sequence number 1, and without SRAM. It prints a line for each record: its
number from 0, the answer (0, or why it was refused), NVMCON, and 1 where there
was an event, else 0. On a terminal a picture of both banks after the play
follows.
What is no script gets the line 14, a reason on standard error, and status 1.
With --sizes a script may be of any length.
A script of yohrundel script ends on its sign in the new bank. A play checks
nothing that an update start checks: on any other sign nothing is promised.",
    options: &[SIZES, BANK1, BANK2, SHOWN, RESTART, SAVE1, SAVE2],
    keys: &[],
    run,
};

const SHOWN: OptionSpec = IMAGE.explained("an image whose pages the picture shows as new");

const RESTART: OptionSpec = OptionSpec::flag(
    "--restart",
    "resets by power-on and starts up at the end, and says how many records were refused, which \
     bank runs, and why",
);

/// The longest script of the play program in bytes.
const LONGEST: usize = 65_536;

/// What the options say.
struct Options<'a> {
    sizes: Option<Geometry>,
    banks: BankFiles<'a>,
    image: Option<&'a OsStr>,
    restart: bool,
    saves: Saves<'a>,
}

impl<'a> Options<'a> {
    fn of(arguments: &Arguments<'a>) -> Result<Options<'a>, Failure> {
        let options = Options {
            sizes: sizes(arguments)?,
            banks: BankFiles::of(arguments)?,
            image: arguments.value(&SHOWN),
            restart: arguments.is_given(&RESTART),
            saves: Saves::of(arguments)?,
        };
        let of_a_sign = options.banks.are_given() || options.image.is_some();
        if of_a_sign && options.sizes.is_none() {
            return Err(Failure::arguments("banks and an image need --sizes"));
        }
        Ok(options)
    }

    /// The sign that is played on, and how long a script may be.
    fn sign(&self) -> Result<(Sign, usize), Failure> {
        match self.sizes {
            Some(geometry) => Ok((self.banks.sign(geometry, self.image)?, usize::MAX)),
            None => Ok((Sign::bench()?, LONGEST)),
        }
    }
}

fn run(mut arguments: Arguments) -> Answer {
    let options = Options::of(&arguments)?;
    let path = arguments.required("FILE")?;
    arguments.end()?;
    let (mut sign, longest) = options.sign()?;
    let script = files::bytes(path, longest.saturating_add(1))?;
    if script.len() > longest {
        let cause = format!("more than {longest} bytes");
        return Err(refused(Failure::declined(Decline::Script, cause)));
    }
    let mut output = match sign.play(&script) {
        Err(Decline::Script) => return Err(refused(malformed(&script))),
        Err(decline) => return Err(impossible(sign.geometry, &sign.device, decline)),
        Ok(output) => output,
    };
    if options.restart {
        output.extend(restarted(&mut sign, &output)?.bytes());
    }
    if let Some(bank) = options.saves.write(&sign)? {
        return Ok(bank);
    }
    if io::stdout().is_terminal() {
        let new = options.image.map(|_| &sign.new[..]);
        let pages = SignPages::after_play(&sign, new)?;
        let (picture, legend) = (picture_of(&pages), legend());
        output.extend(format!("\n{picture}\n{legend}").bytes());
    }
    Ok(output)
}

/// A reset and a start-up after the play, which has printed some lines.
fn restarted(sign: &mut Sign, played: &[u8]) -> Result<String, Decline> {
    sign.restart(POWER_ON, [0; 4])?;
    let (count, runs) = (count(&String::from_utf8_lossy(played)), runs(sign));
    Ok(format!(
        "\n{count}\nAfter a power-on reset and start-up {runs}.\n"
    ))
}

/// How many records were played, and how many of them refused, by their lines.
fn count(lines: &str) -> String {
    let answers = lines.lines().filter_map(|line| line.split(' ').nth(1));
    let refused = answers.clone().filter(|answer| *answer != "0").count();
    let first = answers.clone().position(|answer| answer != "0");
    let first = first.map_or(String::new(), |first| {
        format!(", the first of them record {first}")
    });
    format!(
        "Records played: {}, refused: {refused}{first}.",
        answers.count()
    )
}

/// "Under decline 14, or with more than 65,536 bytes, the program prints only the line 14."
fn refused(failure: Failure) -> Failure {
    Failure {
        output: b"14\n".to_vec(),
        ..failure
    }
}
