//! The pages of both banks of a sign at one moment, as the pictures show them.

use yohrundel::{page, Bank, Decline, Device, Geometry};

use crate::erased::is_erased;
use crate::page_state::{page_state, PageState};
use crate::sheet::protected_pages;
use crate::sign::Sign;

/// A page of a bank.
#[derive(Clone, Copy)]
pub struct Page {
    pub state: PageState,
    pub is_protected: bool,
}

/// The pages of a bank.
pub struct BankPages {
    pub bank: Bank,
    /// Whether the sign runs this bank.
    pub runs: bool,
    pub boot: Vec<Page>,
    pub program: Vec<Page>,
}

/// The pages of both banks.
pub struct SignPages(pub [BankPages; 2]);

impl SignPages {
    /// The pages of a sign in its update.
    pub fn of(sign: &Sign) -> Result<SignPages, Decline> {
        let [one, two] = &sign.banks;
        SignPages::at(sign, sign.device, [one, two], sign.reached)
    }

    /// The pages of a sign with this device and these banks, whose update reached a place and which was as another sign before it.
    pub fn at(
        before: &Sign,
        device: Device,
        now: [&[u32]; 2],
        place: u32,
    ) -> Result<SignPages, Decline> {
        let (geometry, [_, updated]) = (before.geometry, before.old_and_new());
        let pages = 0..geometry.pages()? as u32;
        let erased = BANKS.map(|bank| {
            let is_erased = |page| bank == updated && is_erased(geometry, place, page);
            pages.clone().map(is_erased).collect()
        });
        judged(before, device, now, Some(&before.new), erased)
    }

    /// The pages of a sign after the play of a script, beside a new bank where one is known. In a bank that is the new one, page by page,
    /// each page is new.
    pub fn after_play(sign: &Sign, new: Option<&[u32]>) -> Result<SignPages, Decline> {
        let ([one, two], pages) = (&sign.banks, sign.geometry.pages()?);
        let now = [&one[..], two];
        let erased = now.map(|words| vec![Some(words) == new; pages]);
        judged(sign, sign.device, now, new, erased)
    }
}

const BANKS: [Bank; 2] = [Bank::One, Bank::Two];

/// The pages of a sign, by what it was before, the new bank where it is known, and which pages of each bank are erased.
fn judged(
    before: &Sign,
    device: Device,
    now: [&[u32]; 2],
    new: Option<&[u32]>,
    erased: [Vec<bool>; 2],
) -> Result<SignPages, Decline> {
    let geometry = before.geometry;
    let protected = protected_pages(geometry, device, now[0], now[1])?;
    let protected = protected.split_at(geometry.pages()?);
    let bank_pages = |bank, now, erased: &[bool], protected| {
        let states = states(geometry, before.old_bank(bank), new, now, erased)?;
        Ok(BankPages::of(geometry, device, bank, states, protected))
    };
    Ok(SignPages([
        bank_pages(Bank::One, now[0], &erased[0], protected.0)?,
        bank_pages(Bank::Two, now[1], &erased[1], protected.1)?,
    ]))
}

/// The state of each page of a bank.
fn states(
    geometry: Geometry,
    old: &[u32],
    new: Option<&[u32]>,
    now: &[u32],
    erased: &[bool],
) -> Result<Vec<PageState>, Decline> {
    let state = |(number, is_erased): (u32, &bool)| {
        let part = |words| page(geometry, words, number);
        let new = new.map(part).transpose()?;
        Ok(page_state(part(old)?, new, part(now)?, *is_erased))
    };
    (0..).zip(erased).map(state).collect()
}

impl BankPages {
    fn of(
        geometry: Geometry,
        device: Device,
        bank: Bank,
        states: Vec<PageState>,
        protected: &[bool],
    ) -> BankPages {
        let page = |(state, is_protected): (PageState, &bool)| Page {
            state,
            is_protected: *is_protected,
        };
        let mut boot: Vec<Page> = states.into_iter().zip(protected).map(page).collect();
        BankPages {
            bank,
            runs: device.running_bank() == Some(bank),
            program: boot.split_off(geometry.b as usize),
            boot,
        }
    }

    /// How many pages of each state it has, in words.
    pub fn summary(&self) -> String {
        let pages = || self.boot.iter().chain(&self.program);
        let count = |state| pages().filter(|page| page.state == state).count();
        let counts = PageState::ALL.map(|state| (count(state), state.name()));
        let counts = counts.iter().filter(|(count, _)| *count > 0);
        let counts: Vec<String> = counts
            .map(|(count, name)| format!("{count} {name}"))
            .collect();
        let runs = if self.runs { ", which runs," } else { "" };
        let (number, counts) = (self.bank.number(), counts.join(", "));
        format!("bank {number}{runs} has {counts}")
    }
}

#[cfg(test)]
mod tests {
    use super::PageState::{Blank, New, Old};
    use super::*;

    /// A sign with pages of 8 quads whose program page is all ones in both banks and in the image; the bank of a number runs.
    fn sign(runs: u16) -> Result<Sign, Decline> {
        let geometry = Geometry { q: 1, b: 1, p: 1 };
        let bank = |number: u16| {
            let mut words = vec![7; 64];
            words[geometry.sequence_index()?] = (!number as u32) << 16 | number as u32;
            words[32..].fill(!0);
            Ok(words)
        };
        let banks = [bank(3 - runs)?, bank(runs)?];
        Sign::started(geometry, banks, bank(9)?)
    }

    /// The states of the boot page and the program page of each bank, at a place.
    fn states(runs: u16, place: u32) -> Result<[[PageState; 2]; 2], Decline> {
        let mut sign = sign(runs)?;
        sign.note_place(place);
        let SignPages(banks) = SignPages::of(&sign)?;
        Ok(banks.map(|bank| [bank.boot[0].state, bank.program[0].state]))
    }

    /// Only in the bank that is updated is a page of all ones new, once it is erased, which is at place 43.
    #[test]
    fn pages_of_all_ones() {
        assert_eq!(states(1, 42), Ok([[Old, Blank], [Old, Blank]]));
        assert_eq!(states(1, 43), Ok([[Old, Blank], [Old, New]]));
        assert_eq!(states(2, 42), Ok([[Old, Blank], [Old, Blank]]));
        assert_eq!(states(2, 43), Ok([[Old, New], [Old, Blank]]));
    }
}
