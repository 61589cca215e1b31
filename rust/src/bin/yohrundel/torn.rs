//! The quad that a reset tears.

use yohrundel::{Bank, Decline};

use crate::page_names::quad_name;
use crate::sign::Sign;
use crate::wording::quad;

/// What a reset did to the banks, as the rest of a sentence: it tears at most one quad.
pub fn change(sign: &Sign, before: &[Vec<u32>; 2]) -> Result<String, Decline> {
    for (bank, before) in [Bank::One, Bank::Two].into_iter().zip(before) {
        let after = sign.bank(bank);
        let mut words = before.iter().zip(after);
        if let Some(word) = words.position(|(before, after)| before != after) {
            let first = word / 4 * 4;
            let (old, new) = (&before[first..first + 4], &after[first..first + 4]);
            let (old, new) = (quad(old), quad(new));
            let (name, number) = (quad_name(sign.geometry, word)?, bank.number());
            return Ok(format!(
                "tears {name} of bank {number}:\n{old} becomes\n{new}"
            ));
        }
    }
    Ok(String::from("changes no word"))
}
