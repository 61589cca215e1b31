//! Cases and scripts made from a seed, and directed ones.

mod calls;
mod devices;
pub mod directed;
mod lanes;
mod memory;
mod places;
mod plans;
mod reaches;
mod record_edges;
mod schedules;
mod scripts;
mod sheets;
mod smallest;
mod tries;
mod walks;
mod write_scripts;

pub use memory::{old_bank_one, random_image};
pub use places::{accepted_start, Start};
pub use record_edges::{record_edges, refused_scripts};
pub use scripts::script;
pub use tries::random_try;

use crate::cases::{Case, Shape, BASE, SHAPES};
use crate::random::Random;

/// Words in a bank where the command names no other bound.
pub const DEFAULT_WORDS: u32 = 512;

/// Words in the longest bank.
pub const MOST_WORDS: u32 = 544_768;

/// Makes one case after another; banks have at most `max_words` words.
pub struct Cases {
    random: Random,
    shapes: &'static [Shape],
    max_words: u32,
}

impl Cases {
    /// Cases of the base's calls.
    pub fn new(seed: u64, max_words: u32) -> Cases {
        Cases::of(&SHAPES[..BASE], seed, max_words)
    }

    /// Cases of the calls that later requests added; one page sheet in sixteen has long rows
    /// whatever the bound is, and few words that differ. Few long scripts get a buffer that takes them.
    pub fn of_requests(seed: u64, max_words: u32) -> Cases {
        Cases::of(&SHAPES[BASE..], seed, max_words)
    }

    fn of(shapes: &'static [Shape], seed: u64, max_words: u32) -> Cases {
        Cases {
            random: Random::new(seed),
            shapes,
            max_words: max_words.min(MOST_WORDS),
        }
    }
}

impl Iterator for Cases {
    type Item = Case;

    fn next(&mut self) -> Option<Case> {
        let number = self.random.below(self.shapes.len() as u32) as usize;
        let call = self.shapes[number].call;
        Some(calls::case(&mut self.random, call, self.max_words))
    }
}

/// Full lines of the calls that later requests added.
pub fn request_lines(seed: u64, max_words: u32) -> impl Iterator<Item = String> {
    Cases::of_requests(seed, max_words).filter_map(|case| line(&case))
}

/// The full line of a case.
pub fn line(case: &Case) -> Option<String> {
    Some(format!("{} | {}", case.inputs(), case.answer()?))
}
