//! Both banks in text, a character a page.

use yohrundel::Decline;

use crate::page_state::PageState;
use crate::sign::Sign;
use crate::sign_pages::{BankPages, Page, SignPages};

const PROTECTED: char = '^';
const RUNS: char = '*';

/// What the characters of a picture mean.
pub fn legend() -> String {
    let states = PageState::ALL.map(|state| format!("{} {}", character(state), state.name()));
    let states = states.join("   ");
    format!("{states}   {PROTECTED} protected   {RUNS} runs\n")
}

/// The character of a page.
fn character(state: PageState) -> char {
    match state {
        PageState::Old => 'o',
        PageState::Blank => '.',
        PageState::Partly => '~',
        PageState::New => 'n',
    }
}

/// Program pages in a row, which then has at most 78 columns. A bank with more has a second row.
pub const ROW_PAGES: usize = 64;

/// A sign in its update.
pub fn picture(sign: &Sign) -> Result<String, Decline> {
    Ok(picture_of(&SignPages::of(sign)?))
}

/// Rows for each bank, boot pages and then program pages, and under each row one with a mark for each protected page.
pub fn picture_of(pages: &SignPages) -> String {
    row("", "boot", "program") + &pages.0.iter().map(bank_rows).collect::<String>()
}

fn bank_rows(bank: &BankPages) -> String {
    let mut text = String::new();
    let mark = if bank.runs { RUNS } else { ' ' };
    let mut label = format!("bank {}{mark}", bank.bank.number());
    let mut boot = &bank.boot[..];
    for program in bank.program.chunks(ROW_PAGES) {
        text += &row(&label, &contents(boot), &contents(program));
        let marked = row("", &marks(boot), &marks(program));
        if marked.contains(PROTECTED) {
            text += &marked;
        }
        label.clear();
        boot = &[];
    }
    text
}

fn row(label: &str, boot: &str, program: &str) -> String {
    let row = format!("{label:8}{boot:5} {program}");
    format!("{}\n", row.trim_end())
}

fn contents(pages: &[Page]) -> String {
    pages.iter().map(|page| character(page.state)).collect()
}

fn marks(pages: &[Page]) -> String {
    pages.iter().map(mark).collect()
}

fn mark(page: &Page) -> char {
    if page.is_protected {
        PROTECTED
    } else {
        ' '
    }
}
