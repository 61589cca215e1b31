//! What several commands say.

use std::fmt::Display;

use yohrundel::reset_kind::POWER_ON;
use yohrundel::Decline;

use crate::picture::picture;
use crate::progress::Progress;
use crate::sign::Sign;

/// The bank that runs, and on a line of its own why the last reset chose it, as the rest of a sentence.
pub fn runs(sign: &Sign) -> String {
    let runs = match sign.device.running_bank() {
        Some(bank) => format!("bank {} runs", bank.number()),
        None => return String::from("no bank runs"),
    };
    match sign.reason {
        Some(reason) => format!("{runs}:\n{reason}"),
        None => runs,
    }
}

/// A number before a noun, which gets an s but after 1.
pub fn counted(number: impl Display, noun: &str) -> String {
    match number.to_string() {
        one if one == "1" => format!("{one} {noun}"),
        several => format!("{several} {noun}s"),
    }
}

/// A quad in hexadecimal words.
pub fn quad(words: &[u32]) -> String {
    let words: Vec<String> = words.iter().map(|word| format!("{word:08X}")).collect();
    words.join(" ")
}

/// Does the whole update from an accepted start on, and says how it ends.
pub fn whole_update(
    sign: &mut Sign,
    total: u32,
    progress: &mut Progress,
) -> Result<String, Decline> {
    let turns = sign.turn_until_done(total, progress)?;
    sign.restart(POWER_ON, [0; 4])?;
    let (runs, picture, ending) = (runs(sign), picture(sign)?, ending(sign)?);
    Ok(format!(
        "It has {} and is done after {}.\n\
         After a power-on reset and start-up {runs}.\n\n{picture}\n{ending}",
        counted(total, "action"),
        counted(turns, "turn")
    ))
}

/// What became of both banks.
pub fn ending(sign: &Sign) -> Result<String, Decline> {
    let [old, new] = sign.old_and_new();
    let kept = sign.bank(old) == sign.old_bank(old);
    let kept = if kept { "kept" } else { "did not keep" };
    let exact = sign.bank(new) == sign.new;
    let exact = if exact { "is" } else { "is not" };
    let (old, new, quad) = (old.number(), new.number(), quad(sign.new_quad()?));
    Ok(format!(
        "Bank {old} {kept} every word.\n\
         Bank {new} {exact} the image with the new sequence quad\n{quad}.\n"
    ))
}
